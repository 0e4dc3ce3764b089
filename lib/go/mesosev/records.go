package mesosev

// #include "library.h"
import "C"

// LogHeader returns the header of a session log of version 2, its first record. A record of LogEvent,
// LogCall or LogBroken follows for each event received, each call sent and each break of the stream,
// in order. Replay and `mesosev replay` read the log.
func LogHeader() ([]byte, error) {
	return askText(C.text_function(C.mes_log_header))
}

// LogEvent returns the record of an event received. Returns a *Fault if the text is no event, and
// ErrNoText if it is too large or too deep.
func LogEvent(event []byte) ([]byte, error) {
	return askRecord(C.record_function(C.mes_log_event), event)
}

// LogCall returns the record of a call sent. Returns a *Fault if the text is no call, and ErrNoText
// if it is too large or too deep.
func LogCall(call []byte) ([]byte, error) {
	return askRecord(C.record_function(C.mes_log_call), call)
}

// LogBroken returns the record of a break of the stream.
func LogBroken() ([]byte, error) {
	return askText(C.text_function(C.mes_log_broken))
}

// WriteEvent returns the record of an event in a stream, for programs that send events. Returns a
// *Fault if the text is no event, and ErrNoText if it is too large or too deep.
func WriteEvent(event []byte) ([]byte, error) {
	return askRecord(C.record_function(C.mes_write_event), event)
}

// WriteChunk returns the bytes as a chunk of a chunked HTTP body (RFC 9112, section 7.1). Without
// bytes it returns the last chunk, which ends the body.
func WriteChunk(bytes []byte) ([]byte, error) {
	return askRecord(C.record_function(C.mes_write_chunk), bytes)
}

// Fits checks without a session whether tasks fit the offers on which they would be launched. The
// arguments are JSON arrays of offers and of TaskInfos. Returns nil if they fit; a *Refusal (S6) with
// the first task and its first resource that do not fit, where all tasks are counted together; or a
// *Fault, whose record is 1 for the offers and 2 for the tasks.
func Fits(offers, tasks []byte) error {
	_, err := new(room).ask(func(text *C.char, room C.size_t, size *C.size_t) C.uint32_t {
		return C.call_fits(first(offers), C.size_t(len(offers)), first(tasks), C.size_t(len(tasks)), text, room, size)
	})
	return err
}

// askRecord calls a function that returns the record of a message.
func askRecord(function C.record_function, message []byte) ([]byte, error) {
	return roomFor(message).ask(func(text *C.char, room C.size_t, size *C.size_t) C.uint32_t {
		return C.call_record(function, first(message), C.size_t(len(message)), text, room, size)
	})
}

// askText calls a function that returns a text.
func askText(function C.text_function) ([]byte, error) {
	return new(room).ask(func(text *C.char, room C.size_t, size *C.size_t) C.uint32_t {
		return C.call_text(function, text, room, size)
	})
}
