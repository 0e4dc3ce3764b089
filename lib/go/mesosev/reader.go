package mesosev

// #include "library.h"
import "C"

import (
	"io"
	"runtime"
	"unsafe"
)

// The record limit of a reader without the option Limit, and the largest one, in bytes.
const (
	LimitUsual = 4_194_304
	LimitMost  = 67_108_864
)

const (
	// pieceSize is the greatest number of bytes that a reader reads at a time.
	pieceSize = 65_536
	// maxEvents is the greatest number of events of one call of C.
	maxEvents = 1024
	// maxEmptyReads is the number of consecutive empty reads after which a source makes no progress.
	maxEmptyReads = 100
)

type settings struct {
	limit   int
	framing C.uint32_t
	flags   C.uint32_t
}

// An Option configures a reader: NewReader takes any number of them.
type Option func(*settings)

// Chunked reads a chunked HTTP body (RFC 9112, section 7.1) instead of plain RecordIO. The body of a
// response of net/http needs no such option, since net/http has decoded it.
func Chunked() Option {
	return func(chosen *settings) { chosen.framing = C.MES_CHUNKED }
}

// Limit sets the size in bytes of the largest record, 1 to LimitMost.
func Limit(size int) Option {
	return func(chosen *settings) { chosen.limit = size }
}

// WithoutTexts makes events without texts, which is faster.
func WithoutTexts() Option {
	return func(chosen *settings) { chosen.flags |= C.MES_WITHOUT_TEXTS }
}

// A Reader decodes the events of a stream. NewReader makes one.
type Reader struct {
	_      noCopy
	source io.Reader
	handle *C.mes_decoder
	// Room for the events of one call, in the memory of C.
	events *C.mes_event
	// The number of events that the last call decoded, and of those that Next has returned.
	decoded, taken int
	// The bytes of the last read. Those from `at` to `length` are not decoded yet.
	piece      []byte
	at, length int
	// The error of the last read, which is returned after the events of its bytes.
	readError error
	// The number of consecutive reads without bytes or an error.
	emptyReads int
	// The result of the last call.
	status      C.uint32_t
	used, count C.size_t
	// io.EOF or the fault, once the stream has ended.
	end error
}

// NewReader returns a reader of the events of a stream. Without options the stream is plain RecordIO
// with the limit LimitUsual. Returns ErrLimit or ErrNoMemory.
//
// The reader reads at most 65,536 bytes at a time. Each event is returned once its last byte was read.
// The source is not closed.
func NewReader(source io.Reader, options ...Option) (*Reader, error) {
	chosen := settings{limit: LimitUsual, framing: C.MES_PLAIN}
	for _, option := range options {
		option(&chosen)
	}
	if chosen.limit < 1 || chosen.limit > LimitMost {
		return nil, ErrLimit
	}
	r := &Reader{source: source, piece: make([]byte, pieceSize), status: C.MES_MORE}
	if C.mes_decoder_new(C.uint32_t(chosen.limit), chosen.framing, chosen.flags, &r.handle) != C.MES_GOOD {
		return nil, ErrNoMemory
	}
	r.events = (*C.mes_event)(C.calloc(maxEvents, C.sizeof_mes_event))
	runtime.SetFinalizer(r, (*Reader).Close)
	if r.events == nil {
		r.Close()
		return nil, ErrNoMemory
	}
	return r, nil
}

// Next returns the next event. It returns io.EOF at the end of the stream, and a *Fault if the
// stream is invalid, each time after the events that precede it and again at each later call.
//
// Any other error of the source is returned as it is, after the events before it. The next call then
// reads again, so that no event is lost if the error was a timeout. If the source returns neither
// bytes nor an error 100 times in a row, the error is io.ErrNoProgress. After Close the error is
// ErrClosed.
func (r *Reader) Next() (Event, error) {
	defer runtime.KeepAlive(r)
	if r.handle == nil {
		return Event{}, ErrClosed
	}
	for r.taken == r.decoded {
		if err := r.advance(); err != nil {
			return Event{}, err
		}
	}
	event := unsafe.Slice(r.events, maxEvents)[r.taken]
	r.taken++
	return newEvent(Type(event._type), textOf(&event)), nil
}

// Unused returns the bytes that were read after the end of a chunked body, or after a fault; nil
// before Next has returned that.
func (r *Reader) Unused() []byte {
	if r.handle == nil || r.end == nil {
		return nil
	}
	return append([]byte{}, r.piece[r.at:r.length]...)
}

// Close frees the decoder, and returns nil. It may be called again. The source is not closed. To end a
// call of Next that waits for bytes, close the source instead.
func (r *Reader) Close() error {
	if r == nil || r.handle == nil {
		return nil
	}
	runtime.SetFinalizer(r, nil)
	C.mes_decoder_free(r.handle)
	C.free(unsafe.Pointer(r.events))
	r.handle, r.events = nil, nil
	r.decoded, r.taken = 0, 0
	return nil
}

// advance decodes or reads more. Returns an error if there is no further event.
func (r *Reader) advance() error {
	switch {
	case r.end != nil:
		return r.end
	case r.status != C.MES_MORE && r.status != C.MES_EVENT:
		return r.finish()
	case r.at < r.length:
		r.decode()
		return nil
	case r.readError == io.EOF:
		return r.finish()
	case r.readError != nil:
		err := r.readError
		r.readError = nil
		return err
	}
	return r.read()
}

// read reads the next piece.
func (r *Reader) read() error {
	length, err := r.source.Read(r.piece)
	r.at, r.length, r.readError = 0, length, err
	if length > 0 || err != nil {
		r.emptyReads = 0
		return nil
	}
	r.emptyReads++
	if r.emptyReads < maxEmptyReads {
		return nil
	}
	r.emptyReads = 0
	return io.ErrNoProgress
}

// decode decodes the next events of the piece.
func (r *Reader) decode() {
	r.used, r.count = 0, 0
	rest := r.piece[r.at:r.length]
	r.status = C.call_many(r.handle, first(rest), C.size_t(len(rest)), &r.used, r.events, maxEvents, &r.count)
	r.at += int(r.used)
	r.decoded, r.taken = int(r.count), 0
}

// finish ends the input. Returns how the stream ended.
func (r *Reader) finish() error {
	// All events were taken, so their room is free.
	status := uint32(C.mes_decoder_finish(r.handle, r.events))
	switch {
	case status == C.MES_END:
		r.end = io.EOF
	case isFault(status):
		r.end = newFault(int(status), string(textOf(r.events)))
	default:
		// The source has closed the reader.
		return ErrClosed
	}
	return r.end
}

// textOf returns a copy of the text of an event, or nil if it has none.
func textOf(event *C.mes_event) []byte {
	if event.text == nil {
		return nil
	}
	return C.GoBytes(unsafe.Pointer(event.text), C.int(event.length))
}
