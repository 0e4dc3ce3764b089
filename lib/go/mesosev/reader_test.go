package mesosev_test

import (
	"bytes"
	"encoding/json"
	"errors"
	"io"
	"os"
	"path/filepath"
	"strings"
	"testing"
	"testing/iotest"

	"mesosev"
)

func newReader(t *testing.T, source io.Reader, options ...mesosev.Option) *mesosev.Reader {
	t.Helper()
	reader, err := mesosev.NewReader(source, options...)
	if err != nil {
		t.Fatal(err)
	}
	t.Cleanup(func() { reader.Close() })
	return reader
}

// readAll returns the events up to an error, and that error.
func readAll(reader *mesosev.Reader) ([]mesosev.Event, error) {
	var events []mesosev.Event
	for {
		event, err := reader.Next()
		if err != nil {
			return events, err
		}
		events = append(events, event)
	}
}

// expectEnd reports an error other than io.EOF.
func expectEnd(t *testing.T, name string, err error) {
	t.Helper()
	if err != io.EOF {
		t.Errorf("%s: the end is %v", name, err)
	}
}

func TestTheExamplesAreDecoded(t *testing.T) {
	plain, chunked := example(t, "stream.recordio"), example(t, "stream.chunked")
	events, err := readAll(newReader(t, bytes.NewReader(plain)))
	expectEnd(t, "plain", err)
	expect(t, "the number of events", 13, len(events))
	expect(t, "the first event", mesosev.TypeSubscribed, events[0].Type)
	expect(t, "its name", "SUBSCRIBED", events[0].Name)
	expect(t, "the third event", mesosev.TypeOffers, events[2].Type)
	sources := map[string]func(io.Reader) io.Reader{
		"a byte at a time":    iotest.OneByteReader,
		"half of the request": iotest.HalfReader,
		"the end with bytes":  iotest.DataErrReader,
	}
	for name, cut := range sources {
		again, err := readAll(newReader(t, cut(bytes.NewReader(plain))))
		expectEnd(t, name, err)
		expect(t, name, events, again)
		again, err = readAll(newReader(t, cut(bytes.NewReader(chunked)), mesosev.Chunked()))
		expectEnd(t, "chunked, "+name, err)
		expect(t, "chunked, "+name, events, again)
	}
}

func TestTextsAreCanonical(t *testing.T) {
	event, err := newReader(t, strings.NewReader(record(` { "x": [1], "type" : "HEART\u0042EAT" } `))).Next()
	expectText(t, "the text", heartbeat, event.Text, err)
	expect(t, "the type", mesosev.TypeHeartbeat, event.Type)
}

func TestAnUnknownTypeHasItsName(t *testing.T) {
	event, err := newReader(t, strings.NewReader(record(`{"type":"INVERSE \"OFFERS\"","a":1}`))).Next()
	expectText(t, "the text", `{"type":"INVERSE \"OFFERS\""}`, event.Text, err)
	expect(t, "the type", mesosev.TypeOther, event.Type)
	expect(t, "the name", `INVERSE "OFFERS"`, event.Name)
	expect(t, "the name of the type", "OTHER FAILURE OTHER", event.Type.String()+" "+mesosev.TypeFailure.String()+" "+mesosev.Type(9).String())
}

func TestAFaultFollowsItsEvents(t *testing.T) {
	reader := newReader(t, bytes.NewReader(example(t, "broken.recordio")))
	events, err := readAll(reader)
	expect(t, "the number of events", 5, len(events))
	line := "fault F12 Field record 6 update.status.state UnknownName after 3295"
	expected := &mesosev.Fault{Number: 12, Name: "Field", Record: 6, Place: "update.status.state", Reason: "UnknownName", Offset: 3295, Line: line}
	var fault *mesosev.Fault
	expect(t, "it is a fault", true, errors.As(err, &fault))
	expect(t, "the fault", expected, fault)
	_, again := reader.Next()
	expect(t, "the fault again", err, again)
}

func TestEachFaultOfTheBytes(t *testing.T) {
	beat := record(heartbeat)
	chunked := []mesosev.Option{mesosev.Chunked()}
	for _, row := range []struct {
		line, data string
		options    []mesosev.Option
	}{
		{"fault F1 BadChunkLine after 1", "x", chunked},
		{"fault F2 ChunkLineTooLong after 257", "1;" + strings.Repeat(" ", 300), chunked},
		{"fault F3 ChunkTooLarge after 17", strings.Repeat("1", 17), chunked},
		{"fault F4 BadChunkEnd after 5", "1\r\n2x", chunked},
		{"fault F5 TrailersTooLong after 4100", "0\r\n" + strings.Repeat("a:b\r\n", 1000), chunked},
		{"fault F6 EndsInsideChunks after 4", "1\r\n2", chunked},
		{"fault F6 EndsInsideChunks after 0", "", chunked},
		{"fault F7 BadSizeLine after 24", beat + "-", nil},
		{"fault F8 SizeLineTooLong after 21", strings.Repeat("0", 21), nil},
		{"fault F9 RecordTooLarge after 3", beat, []mesosev.Option{mesosev.Limit(19)}},
		{"fault F10 EndsInsideRecord after 45", beat + beat[:22], nil},
		{"fault F11 Text record 2 byte 20 Byte after 48", beat + record(heartbeat[:19]+",}}"), nil},
		{"fault F11 Text record 1 byte 128 Depth after 133", record(strings.Repeat("[", 129)), nil},
		{"fault F12 Field record 1 type Missing after 4", record("{}"), nil},
		{"fault F12 Field record 1 . WrongKind after 4", record("[]"), nil},
	} {
		_, err := readAll(newReader(t, strings.NewReader(row.data), row.options...))
		var fault *mesosev.Fault
		if !errors.As(err, &fault) {
			t.Errorf("%s: %v", row.line, err)
			continue
		}
		expect(t, "the line", row.line, fault.Error())
		words := strings.Fields(row.line)
		expect(t, "the name in "+row.line, words[2], fault.Name)
	}
}

func TestAnErrorOfTheSourceIsReturnedAsItIs(t *testing.T) {
	failed := errors.New("the connection failed")
	source := io.MultiReader(strings.NewReader(record(heartbeat)+"20\n{"), iotest.ErrReader(failed))
	reader := newReader(t, source)
	events, err := readAll(reader)
	expect(t, "the number of events", 1, len(events))
	expect(t, "the error", failed, err)
	_, err = reader.Next()
	expect(t, "the error of the next read", failed, err)
	_, err = readAll(newReader(t, iotest.ErrReader(io.ErrUnexpectedEOF)))
	expect(t, "an end inside a body of net/http", io.ErrUnexpectedEOF, err)
}

// A timeouts is a source of one byte at a time. Each byte comes with a timeout.
type timeouts struct{ data string }

func (s *timeouts) Read(piece []byte) (int, error) {
	if s.data == "" {
		return 0, io.EOF
	}
	piece[0], s.data = s.data[0], s.data[1:]
	return 1, os.ErrDeadlineExceeded
}

func TestAReaderGoesOnAfterATimeout(t *testing.T) {
	data := record(heartbeat) + record(subscribed)
	reader := newReader(t, &timeouts{data})
	count, late := 0, 0
	for {
		_, err := reader.Next()
		if err == io.EOF {
			break
		}
		if err == os.ErrDeadlineExceeded {
			late++
		} else if err == nil {
			count++
		}
	}
	expect(t, "the number of events", 2, count)
	expect(t, "the number of timeouts", len(data), late)
}

// A silent source returns neither bytes nor an error.
type silent struct{}

func (silent) Read([]byte) (int, error) { return 0, nil }

func TestASourceThatMakesNoProgressIsAnError(t *testing.T) {
	reader := newReader(t, silent{})
	for i := 0; i < 2; i++ {
		_, err := reader.Next()
		expect(t, "the error", io.ErrNoProgress, err)
	}
}

// A slow source returns no bytes 99 times before each byte.
type slow struct {
	data  string
	empty int
}

func (s *slow) Read(piece []byte) (int, error) {
	s.empty++
	switch {
	case s.empty%100 != 0:
		return 0, nil
	case s.data == "":
		return 0, io.EOF
	}
	piece[0], s.data = s.data[0], s.data[1:]
	return 1, nil
}

func TestSomeEmptyReadsAreNoError(t *testing.T) {
	events, err := readAll(newReader(t, &slow{data: record(heartbeat)}))
	expectEnd(t, "the stream", err)
	expect(t, "the number of events", 1, len(events))
}

func TestAnEventIsReturnedBeforeMoreIsRead(t *testing.T) {
	source, sink := io.Pipe()
	reader := newReader(t, source)
	for _, text := range []string{heartbeat, subscribed, update} {
		go io.WriteString(sink, record(text))
		event, err := reader.Next()
		expectText(t, "the text", text, event.Text, err)
	}
	sink.Close()
	_, err := reader.Next()
	expectEnd(t, "a closed pipe", err)
}

func TestManyEventsInAPiece(t *testing.T) {
	const count = 10_000
	data := strings.Repeat(record(heartbeat), count)
	for name, options := range map[string][]mesosev.Option{"texts": nil, "no texts": {mesosev.WithoutTexts()}} {
		events, err := readAll(newReader(t, strings.NewReader(data), options...))
		expectEnd(t, name, err)
		expect(t, name, count, len(events))
		for _, event := range events {
			if event.Type != mesosev.TypeHeartbeat || event.Name != "HEARTBEAT" || (event.Text == nil) != (options != nil) {
				t.Fatalf("%s: %+v", name, event)
			}
		}
	}
}

func TestAnEventWithoutATextHasNoJSON(t *testing.T) {
	event, err := newReader(t, strings.NewReader(record(`{"type":"X"}`)), mesosev.WithoutTexts()).Next()
	expect(t, "the event", mesosev.Event{}, event)
	expect(t, "the error", nil, err)
	_, err = json.Marshal(event)
	expect(t, "ErrNoText", true, errors.Is(err, mesosev.ErrNoText))
	// The text is larger than the limit, although the record is not.
	large := `{"type":"SUBSCRIBED","subscribed":{"framework_id":{"value":"F1"},"heartbeat_interval_seconds":15}}`
	event, err = newReader(t, strings.NewReader(record(large)), mesosev.Limit(len(large))).Next()
	expectText(t, "a text that grows", strings.Replace(large, "15", "15.0", 1), event.Text, err)
}

func TestTextsOutliveTheReader(t *testing.T) {
	reader := newReader(t, iotest.OneByteReader(strings.NewReader(record(subscribed)+record(heartbeat)+record(update))))
	events, err := readAll(reader)
	expectEnd(t, "the stream", err)
	reader.Close()
	for i, text := range []string{subscribed, heartbeat, update} {
		expect(t, "the text", text, string(events[i].Text))
		// The texts share no memory.
		_ = append(events[i].Text[:0], bytes.Repeat([]byte("x"), len(text))...)
	}
}

func TestALargeRecord(t *testing.T) {
	text := `{"type":"ERROR","error":{"message":"` + strings.Repeat("x", 5_000_000) + `"}}`
	event, err := newReader(t, strings.NewReader(record(text)), mesosev.Limit(mesosev.LimitMost)).Next()
	expectText(t, "the text", text, event.Text, err)
	_, err = newReader(t, strings.NewReader(record(text))).Next()
	var fault *mesosev.Fault
	expect(t, "F9", true, errors.As(err, &fault) && fault.Number == 9)
}

func TestBytesAfterAChunkedBodyAreUnused(t *testing.T) {
	source := strings.NewReader(chunks(record(heartbeat), 7) + "HTTP/1.1")
	reader := newReader(t, source, mesosev.Chunked())
	expect(t, "before the end", []byte(nil), reader.Unused())
	events, err := readAll(reader)
	expectEnd(t, "the body", err)
	expect(t, "the number of events", 1, len(events))
	expect(t, "the unused bytes", "HTTP/1.1", string(reader.Unused()))
	_, err = reader.Next()
	expectEnd(t, "the end again", err)
}

func TestInvalidLimits(t *testing.T) {
	for _, limit := range []int{-1, 0, mesosev.LimitMost + 1, 1<<31 - 1} {
		reader, err := mesosev.NewReader(strings.NewReader(""), mesosev.Limit(limit))
		expect(t, "the error", mesosev.ErrLimit, err)
		expect(t, "the reader", (*mesosev.Reader)(nil), reader)
	}
}

func TestEventsAndJSON(t *testing.T) {
	var event mesosev.Event
	if err := json.Unmarshal([]byte(` { "x":1, "type":"OFFERS", "offers":[]} `), &event); err != nil {
		t.Fatal(err)
	}
	text := `{"type":"OFFERS","offers":{}}`
	expect(t, "the event", mesosev.Event{Type: mesosev.TypeOffers, Name: "OFFERS", Text: []byte(text)}, event)
	written, err := json.Marshal([]mesosev.Event{event})
	expectText(t, "the JSON", "["+text+"]", written, err)
	var fault *mesosev.Fault
	err = json.Unmarshal([]byte(`{"type":"OFFERS"}`), &event)
	expect(t, "F12", true, errors.As(err, &fault) && fault.Number == 12)
	expect(t, "the unchanged event", text, string(event.Text))
}

func TestAClosedReader(t *testing.T) {
	reader := newReader(t, bytes.NewReader(example(t, "stream.recordio")))
	if _, err := reader.Next(); err != nil {
		t.Fatal(err)
	}
	for i := 0; i < 2; i++ {
		expect(t, "Close", nil, reader.Close())
		event, err := reader.Next()
		expect(t, "the error", mesosev.ErrClosed, err)
		expect(t, "the event", mesosev.Event{}, event)
		expect(t, "the unused bytes", []byte(nil), reader.Unused())
	}
	var none *mesosev.Reader
	expect(t, "Close of nil", nil, none.Close())
	_, err := new(mesosev.Reader).Next()
	expect(t, "a reader that was not made", mesosev.ErrClosed, err)
}

// A closing source closes its reader in a read, before which there were others.
type closing struct {
	reader *mesosev.Reader
	before int
}

func (s *closing) Read(piece []byte) (int, error) {
	if s.before == 0 {
		s.reader.Close()
	}
	s.before--
	return copy(piece, record(heartbeat)), nil
}

func TestASourceMayCloseItsReader(t *testing.T) {
	for before := 0; before < 3; before++ {
		source := &closing{before: before}
		source.reader = newReader(t, source)
		events, err := readAll(source.reader)
		expect(t, "the error", mesosev.ErrClosed, err)
		expect(t, "the number of events", before, len(events))
	}
}

// BenchmarkReader decodes 100 copies of the example.
func BenchmarkReader(b *testing.B) {
	data, err := os.ReadFile(filepath.Join(examples(), "stream.recordio"))
	if err != nil {
		b.Fatal(err)
	}
	data = bytes.Repeat(data, 100)
	for name, options := range map[string][]mesosev.Option{"texts": nil, "no texts": {mesosev.WithoutTexts()}} {
		b.Run(name, func(b *testing.B) {
			b.SetBytes(int64(len(data)))
			b.ReportAllocs()
			for i := 0; i < b.N; i++ {
				reader, err := mesosev.NewReader(bytes.NewReader(data), options...)
				if err != nil {
					b.Fatal(err)
				}
				if events, err := readAll(reader); err != io.EOF || len(events) != 1300 {
					b.Fatal(len(events), err)
				}
				reader.Close()
			}
		})
	}
}
