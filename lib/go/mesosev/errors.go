package mesosev

import (
	"errors"
	"regexp"
	"strconv"
)

var (
	// ErrNoText means that a call, or an event for MarshalJSON, has no canonical text: it is too
	// large or too deep for any record, or the decoder made no text.
	ErrNoText = errors.New("mesosev: there is no canonical text: it is too large or too deep, or was not made")
	// ErrAbsent means that the session has no framework yet, or no such offer or update.
	ErrAbsent = errors.New("mesosev: the session has no framework, or no such offer or update")
	// ErrNoMemory means that an allocation failed in the library. errors.Is also finds it in the
	// fault F13 and in the refusal S8.
	ErrNoMemory = errors.New("mesosev: out of memory")
	// ErrLimit means that the limit of a reader is not 1 to LimitMost.
	ErrLimit = errors.New("mesosev: the limit is not 1 to 67108864 bytes")
	// ErrClosed means that the reader or the session was closed.
	ErrClosed = errors.New("mesosev: the reader or session is closed")
)

var (
	faultLine   = regexp.MustCompile(`^fault F\d+ \S+(?: record (\d+)(?: byte (\d+) (\S+)| (\S+) (\S+))?)? after (\d+)$`)
	refusalLine = regexp.MustCompile(`^refused S\d \S+ record (\d+)(?: index (\d+))?(?: task (\d+))?(?: resource (\d+))?$`)
)

// The names of the faults F1 to F16 and of the refusals S1 to S8, at their numbers.
var (
	faultNames = [...]string{"", "BadChunkLine", "ChunkLineTooLong", "ChunkTooLarge", "BadChunkEnd",
		"TrailersTooLong", "EndsInsideChunks", "BadSizeLine", "SizeLineTooLong", "RecordTooLarge",
		"EndsInsideRecord", "Text", "Field", "NoMemory", "Read", "ReadsSpent", "BadEntry"}
	refusalNames = [...]string{"", "NotSubscribed", "NamedTwice", "NoSuchOffer", "TwoAgents",
		"WrongAgent", "Exceeds", "NotOwed", "NoMemory"}
)

// A Fault is what is wrong with a stream, a log, an event or a call.
type Fault struct {
	// Number is 1 to 16, as in F1 to F16.
	Number int
	// Name is for example `Field`.
	Name string
	// Record is the number of the record, from 1; 0 if the fault has none. An event or a call
	// that is given alone is record 1.
	Record int
	// Place is the path of the invalid member (F12), or the offset in the record at which its
	// JSON is invalid (F11); else empty.
	Place string
	// Reason is for example `Missing`; empty if the fault has none.
	Reason string
	// Offset is the number of bytes used, up to the byte at which the fault is reported.
	Offset int64
	// Line is the line that the command prints; empty if it could not be allocated.
	Line string
}

func newFault(number int, line string) *Fault {
	fault := &Fault{Number: number, Name: faultNames[number], Line: line}
	if found := faultLine.FindStringSubmatch(line); found != nil {
		fault.Record = numberOr(found[1], 0)
		fault.Place, fault.Reason = found[2]+found[4], found[3]+found[5]
		// An offset beyond the largest int64 becomes that number.
		fault.Offset, _ = strconv.ParseInt(found[6], 10, 64)
	}
	return fault
}

// Error returns the line.
func (f *Fault) Error() string {
	if f.Line == "" {
		return "fault F" + strconv.Itoa(f.Number) + " " + f.Name
	}
	return f.Line
}

// Is returns whether the fault is F13 and the target ErrNoMemory.
func (f *Fault) Is(target error) bool {
	return f.Number == 13 && target == ErrNoMemory
}

// A Refusal is a call that a session refused, and why.
type Refusal struct {
	// Number is 1 to 8, as in S1 to S8.
	Number int
	// Name is for example `NoSuchOffer`.
	Name string
	// Entry is the number of the call in the history, from 1; 0 if the refusal has no line.
	Entry int
	// Index is that of the offer in the call, from 0; -1 if the refusal has none.
	Index int
	// Task is the index of the task in the call, from 0; -1 if the refusal has none.
	Task int
	// Resource is the index of the resource in the task, from 0; -1 if the refusal has none.
	Resource int
	// Line is the line that the command prints.
	Line string
}

func newRefusal(number int, line string) *Refusal {
	refusal := &Refusal{Number: number, Name: refusalNames[number], Index: -1, Task: -1, Resource: -1, Line: line}
	if found := refusalLine.FindStringSubmatch(line); found != nil {
		refusal.Entry = numberOr(found[1], 0)
		refusal.Index, refusal.Task, refusal.Resource = numberOr(found[2], -1), numberOr(found[3], -1), numberOr(found[4], -1)
	}
	return refusal
}

// Error returns the line.
func (r *Refusal) Error() string {
	if r.Line == "" {
		return "refused S" + strconv.Itoa(r.Number) + " " + r.Name
	}
	return r.Line
}

// Is returns whether the refusal is S8 and the target ErrNoMemory.
func (r *Refusal) Is(target error) bool {
	return r.Number == 8 && target == ErrNoMemory
}

// numberOr returns the number that the digits represent, or `absent` if there are no digits.
func numberOr(digits string, absent int) int {
	if digits == "" {
		return absent
	}
	number, _ := strconv.Atoi(digits)
	return number
}
