// Package mesosev decodes the event stream of the Apache Mesos v1 scheduler API, and checks the calls
// of a scheduler, with the proved C library libmesosev.
//
// A Reader decodes the events of a stream. A Session knows which offers are outstanding and which
// updates are not acknowledged, and refuses the calls that a framework may not make. Events, calls,
// offers and tasks are JSON texts, which encoding/json reads and writes.
//
// pkg-config finds the library by its name mesosev. With the build tag no_pkg_config, CGO_CFLAGS and
// CGO_LDFLAGS name it instead.
//
// Texts that are returned belong to the caller, and an argument is not used after the call. A Reader
// or a Session may be used by one goroutine at a time; different ones are independent. Close frees
// the memory that one has in the library. Without Close it is freed some time after the last use.
package mesosev

// #include "library.h"
import "C"

import (
	"fmt"
	"unsafe"
)

// firstRoom is the size in bytes of a new buffer for texts. Each line of a fault or a refusal fits.
const firstRoom = 4096

// A noCopy is a field of a struct that must not be copied: `go vet` reports a copy.
type noCopy struct{}

func (*noCopy) Lock()   {}
func (*noCopy) Unlock() {}

// Version returns the version of the C library, such as `0.1.0`.
func Version() string {
	return C.GoString(C.mes_version())
}

// A textCall calls a function that writes a text of at most `room` bytes with its NUL.
type textCall func(text *C.char, room C.size_t, size *C.size_t) C.uint32_t

// A room is a buffer for the texts that the library returns. It grows for a text that does not fit.
type room struct {
	bytes []byte
	size  C.size_t
}

// ask calls a function until its text fits, and returns a copy of the text, or the error of the status.
func (r *room) ask(call textCall) ([]byte, error) {
	if r.bytes == nil {
		r.bytes = make([]byte, firstRoom)
	}
	for {
		// Some statuses leave the size unchanged.
		r.size = 0
		status := call(first(r.bytes), C.size_t(len(r.bytes)), &r.size)
		if r.size < C.size_t(len(r.bytes)) {
			return outcome(uint32(status), r.bytes[:r.size])
		}
		r.bytes = make([]byte, 2*r.size+1)
	}
}

// roomFor returns a buffer in which the text of a message fits in most cases.
func roomFor(message []byte) *room {
	return &room{bytes: make([]byte, firstRoom+len(message))}
}

// first returns the address of the first byte, or nil if there is none.
func first(bytes []byte) *C.char {
	if len(bytes) == 0 {
		return nil
	}
	return (*C.char)(unsafe.Pointer(&bytes[0]))
}

// outcome returns a copy of the text, or the error of a status, whose line is the text.
func outcome(status uint32, text []byte) ([]byte, error) {
	switch {
	case status == C.MES_GOOD:
		return append([]byte{}, text...), nil
	case isFault(status):
		return nil, newFault(int(status), string(text))
	case status >= C.MES_NOT_SUBSCRIBED && status <= C.MES_REFUSED_NO_MEMORY:
		return nil, newRefusal(int(status-C.MES_NOT_SUBSCRIBED)+1, string(text))
	case status == C.MES_NO_TEXT:
		return nil, ErrNoText
	case status == C.MES_ABSENT:
		return nil, ErrAbsent
	case status == C.MES_BAD_POINTER:
		return nil, ErrClosed
	}
	return nil, fmt.Errorf("mesosev: the library returned the status %d", status)
}

// isFault returns whether a status is the number of a fault.
func isFault(status uint32) bool {
	return status >= 1 && status <= 16
}
