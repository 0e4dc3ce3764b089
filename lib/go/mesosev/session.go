package mesosev

// #include "library.h"
import "C"

import (
	"encoding/json"
	"runtime"
)

// A Session is the session of a framework with its master. It knows which offers are outstanding,
// which updates are not acknowledged, and which calls are allowed. NewSession and Replay make one.
//
// An error leaves the session unchanged. It is a *Fault if a text is no event or no call; a *Refusal
// if a call is not allowed (S1 to S7), or if an allocation failed for an event (S8); ErrNoText if a
// text is too large or too deep for any record; or ErrAbsent. After Close the methods return
// ErrClosed, or zero if they return no error.
type Session struct {
	_      noCopy
	handle *C.mes_session
	room   room
}

// An Offer is an outstanding offer.
type Offer struct {
	ID, Agent, Hostname string
	// Text is the canonical JSON text of the whole offer.
	Text json.RawMessage
}

// An Update names an update that is to be acknowledged.
type Update struct {
	Agent, Task string
	UUID        []byte
}

// An acknowledgement is the body of an ACKNOWLEDGE.
type acknowledgement struct {
	Agent identifier `json:"agent_id"`
	Task  identifier `json:"task_id"`
	UUID  []byte     `json:"uuid"`
}

// NewSession returns a session without a history. Returns ErrNoMemory if an allocation fails.
func NewSession() (*Session, error) {
	s := &Session{}
	if C.mes_session_new(&s.handle) != C.MES_GOOD {
		return nil, ErrNoMemory
	}
	runtime.SetFinalizer(s, (*Session).Close)
	return s, nil
}

// Replay returns the session to which a session log leads. Returns a *Fault if the bytes are not a
// log, and a *Refusal if an entry is refused.
func Replay(log []byte) (*Session, error) {
	s := &Session{}
	_, err := s.room.ask(func(text *C.char, room C.size_t, size *C.size_t) C.uint32_t {
		return C.call_replay(first(log), C.size_t(len(log)), &s.handle, text, room, size)
	})
	if err != nil {
		return nil, err
	}
	runtime.SetFinalizer(s, (*Session).Close)
	return s, nil
}

// Close frees the session. It returns nil, and may be called again.
func (s *Session) Close() error {
	if s == nil || s.handle == nil {
		return nil
	}
	runtime.SetFinalizer(s, nil)
	C.mes_session_free(s.handle)
	s.handle = nil
	return nil
}

// Heard applies an event received from the master, such as Event.Text.
func (s *Session) Heard(event []byte) error {
	_, err := s.give(C.session_function(C.mes_session_heard), event)
	return err
}

// Said checks a call, and applies it if it is allowed. It returns the canonical text of the call, to
// be posted to the master.
func (s *Session) Said(call []byte) ([]byte, error) {
	return s.give(C.session_function(C.mes_session_said), call)
}

// Check returns what Said would return, but does not apply the call.
func (s *Session) Check(call []byte) ([]byte, error) {
	return s.give(C.session_function(C.mes_session_check), call)
}

// Subscribe makes and applies the SUBSCRIBE of a framework, whose FrameworkInfo is the JSON text
// `info`. It names the framework of the session, if there is one.
func (s *Session) Subscribe(info []byte) ([]byte, error) {
	return s.give(C.session_function(C.mes_session_subscribe), info)
}

// AcknowledgeAt makes and applies the ACKNOWLEDGE of the unacknowledged update at an index from 0, in the
// order of arrival. It returns the canonical text of the call; ErrAbsent if there is no such update.
func (s *Session) AcknowledgeAt(index int) ([]byte, error) {
	return s.at(C.index_function(C.mes_session_acknowledge), index)
}

// Broken records that the stream broke: no offer is outstanding until the next SUBSCRIBED.
func (s *Session) Broken() {
	C.mes_session_broken(s.handle)
	runtime.KeepAlive(s)
}

// Connected returns whether a SUBSCRIBED was received since the stream last broke.
func (s *Session) Connected() bool {
	defer runtime.KeepAlive(s)
	return C.mes_session_connected(s.handle) != 0
}

// Entries returns the number of entries of the history: events, calls and breaks.
func (s *Session) Entries() uint64 {
	defer runtime.KeepAlive(s)
	return uint64(C.mes_session_entries(s.handle))
}

// Framework returns the identifier of the framework; ErrAbsent before the first SUBSCRIBED.
func (s *Session) Framework() (string, error) {
	defer runtime.KeepAlive(s)
	name, err := s.room.ask(func(text *C.char, room C.size_t, size *C.size_t) C.uint32_t {
		return C.mes_session_framework(s.handle, text, room, size)
	})
	return string(name), err
}

// OfferCount returns the number of outstanding offers.
func (s *Session) OfferCount() int {
	defer runtime.KeepAlive(s)
	return int(C.mes_session_offer_count(s.handle))
}

// OfferAt returns the canonical text of the outstanding offer at an index from 0, in the order of
// arrival; ErrAbsent if there is none.
func (s *Session) OfferAt(index int) ([]byte, error) {
	return s.at(C.index_function(C.mes_session_offer_at), index)
}

// Offer returns the canonical text of the outstanding offer with this identifier; ErrAbsent if there
// is none.
func (s *Session) Offer(id string) ([]byte, error) {
	return s.give(C.session_function(C.mes_session_offer), []byte(id))
}

// Offers returns the outstanding offers, in the order of arrival.
func (s *Session) Offers() ([]Offer, error) {
	if s.handle == nil {
		return nil, ErrClosed
	}
	count := s.OfferCount()
	offers := make([]Offer, 0, count)
	for index := 0; index < count; index++ {
		text, err := s.OfferAt(index)
		if err != nil {
			return nil, err
		}
		var read struct {
			ID       identifier `json:"id"`
			Agent    identifier `json:"agent_id"`
			Hostname string     `json:"hostname"`
		}
		if err := json.Unmarshal(text, &read); err != nil {
			return nil, err
		}
		offers = append(offers, Offer{read.ID.Value, read.Agent.Value, read.Hostname, text})
	}
	return offers, nil
}

// OwedCount returns the number of unacknowledged updates.
func (s *Session) OwedCount() int {
	defer runtime.KeepAlive(s)
	return int(C.mes_session_owed_count(s.handle))
}

// OwedAt returns the `acknowledge` of the ACKNOWLEDGE for the unacknowledged update at an index from
// 0, in the order of arrival: a JSON object with its agent_id, its task_id and its uuid. Returns
// ErrAbsent if there is none.
func (s *Session) OwedAt(index int) ([]byte, error) {
	return s.at(C.index_function(C.mes_session_owed_at), index)
}

// Unacknowledged returns the unacknowledged updates, in the order of arrival.
func (s *Session) Unacknowledged() ([]Update, error) {
	if s.handle == nil {
		return nil, ErrClosed
	}
	count := s.OwedCount()
	updates := make([]Update, 0, count)
	for index := 0; index < count; index++ {
		text, err := s.OwedAt(index)
		if err != nil {
			return nil, err
		}
		var read acknowledgement
		if err := json.Unmarshal(text, &read); err != nil {
			return nil, err
		}
		updates = append(updates, Update{read.Agent.Value, read.Task.Value, read.UUID})
	}
	return updates, nil
}

// give calls a function of the session with a message.
func (s *Session) give(function C.session_function, message []byte) ([]byte, error) {
	defer runtime.KeepAlive(s)
	return s.room.ask(func(text *C.char, room C.size_t, size *C.size_t) C.uint32_t {
		return C.call_session(function, s.handle, first(message), C.size_t(len(message)), text, room, size)
	})
}

// at calls a function of the session with an index. A negative one becomes larger than any count.
func (s *Session) at(function C.index_function, index int) ([]byte, error) {
	defer runtime.KeepAlive(s)
	return s.room.ask(func(text *C.char, room C.size_t, size *C.size_t) C.uint32_t {
		return C.call_index(function, s.handle, C.size_t(index), text, room, size)
	})
}
