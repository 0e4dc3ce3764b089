package mesosev

import (
	"bytes"
	"encoding/json"
)

// A Type is the type of an event, as in scheduler.proto.
type Type uint32

// The types of events. TypeOther is any other type, which the name of the event has.
const (
	TypeOther Type = iota
	TypeSubscribed
	TypeOffers
	TypeRescind
	TypeUpdate
	TypeMessage
	TypeFailure
	TypeError
	TypeHeartbeat
)

var typeNames = [...]string{"OTHER", "SUBSCRIBED", "OFFERS", "RESCIND", "UPDATE", "MESSAGE", "FAILURE", "ERROR", "HEARTBEAT"}

// String returns the name of the type, such as `OFFERS`, and `OTHER` for TypeOther.
func (t Type) String() string {
	if int(t) < len(typeNames) {
		return typeNames[t]
	}
	return typeNames[TypeOther]
}

// An Event is an event of a stream. The text belongs to the caller.
type Event struct {
	Type Type
	// Name is the member `type` of the event, such as `OFFERS`. It is empty only for an event of
	// TypeOther without a text.
	Name string
	// Text is the canonical JSON text. It is nil if the reader makes no texts, or if this text
	// is too large or too deep for any record, or could not be allocated.
	Text json.RawMessage
}

// newEvent returns an event with its name.
func newEvent(kind Type, text []byte) Event {
	if kind != TypeOther {
		return Event{kind, kind.String(), text}
	}
	var read struct {
		Type string `json:"type"`
	}
	if text != nil {
		// A canonical text can be parsed.
		_ = json.Unmarshal(text, &read)
	}
	return Event{kind, read.Type, text}
}

// MarshalJSON returns the text, or ErrNoText if there is none.
func (e Event) MarshalJSON() ([]byte, error) {
	if e.Text == nil {
		return nil, ErrNoText
	}
	return e.Text, nil
}

// UnmarshalJSON reads an event with the library. It returns the errors of WriteEvent, and changes
// nothing then.
func (e *Event) UnmarshalJSON(text []byte) error {
	record, err := WriteEvent(text)
	if err != nil {
		return err
	}
	_, canonical, _ := bytes.Cut(record, []byte("\n"))
	other := newEvent(TypeOther, canonical)
	for kind, name := range typeNames {
		if name == other.Name {
			other.Type = Type(kind)
		}
	}
	*e = other
	return nil
}
