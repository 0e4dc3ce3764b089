package mesosev_test

import (
	"errors"
	"fmt"
	"strings"
	"testing"

	"mesosev"
)

func TestTheExampleLogIsReplayed(t *testing.T) {
	session, err := mesosev.Replay(example(t, "session.log"))
	if err != nil {
		t.Fatal(err)
	}
	defer session.Close()
	state := stateOf(t, session)
	report := fmt.Sprintf("entries %d\nframework %q\n", state.Entries, state.Framework)
	for _, offer := range state.Offers {
		report += fmt.Sprintf("hand %q\n", offer.ID)
	}
	for _, update := range state.Unacknowledged {
		uuid := update.UUID
		report += fmt.Sprintf("owed %q %q %x-%x-%x-%x-%x\n", update.Agent, update.Task, uuid[:4], uuid[4:6], uuid[6:8], uuid[8:10], uuid[10:])
	}
	expect(t, "the report", string(example(t, "session.report")), report)
	expect(t, "connected", true, state.Connected)
}

func TestALogThatIsInvalid(t *testing.T) {
	for _, row := range []struct{ log, line string }{
		{"1\n2" + record("X"), "fault F16 BadEntry record 2 after 6"},
		{"1\n", "fault F10 EndsInsideRecord after 2"},
		{"1\n2" + record("E{"), "fault F11 Text record 2 byte 1 End after 7"},
		{"1\n2" + record("E"+subscribed) + record("C"+accept("O1")), "refused S3 NoSuchOffer record 2 index 0"},
	} {
		session, err := mesosev.Replay([]byte(row.log))
		expect(t, "the session", (*mesosev.Session)(nil), session)
		if err == nil {
			t.Errorf("%s is no error", row.line)
			continue
		}
		expect(t, "the line", row.line, err.Error())
	}
	_, err := mesosev.Replay([]byte("1\n2" + record("X")))
	var fault *mesosev.Fault
	expect(t, "F16", true, errors.As(err, &fault))
	expect(t, "its fields", mesosev.Fault{Number: 16, Name: "BadEntry", Record: 2, Offset: 6, Line: err.Error()}, *fault)
}

// join returns concatenated records.
func join(t *testing.T, records ...func() ([]byte, error)) []byte {
	t.Helper()
	var log []byte
	for _, write := range records {
		record, err := write()
		if err != nil {
			t.Fatal(err)
		}
		log = append(log, record...)
	}
	return log
}

func TestRecordsReplayToTheSameSession(t *testing.T) {
	session := newSession(t, subscribed, threeOffers, update)
	said, err := session.Accept([]string{"O1"}, raw(task("T1", "A1", "1")), nil)
	if err != nil {
		t.Fatal(err)
	}
	heard := func(text string) func() ([]byte, error) {
		return func() ([]byte, error) { return mesosev.LogEvent([]byte(text)) }
	}
	log := join(t, mesosev.LogHeader, heard(subscribed), heard(threeOffers), heard(update), func() ([]byte, error) { return mesosev.LogCall(said) })
	expectReplay(t, log, session)
	session.Broken()
	log = append(log, join(t, mesosev.LogBroken)...)
	expectReplay(t, log, session)
	if err := session.Heard([]byte(update)); err != nil {
		t.Fatal(err)
	}
	log = append(log, join(t, heard(update))...)
	expectReplay(t, log, session)
}

func expectReplay(t *testing.T, log []byte, session *mesosev.Session) {
	t.Helper()
	again, err := mesosev.Replay(log)
	if err != nil {
		t.Fatal(err)
	}
	defer again.Close()
	expect(t, "the state", stateOf(t, session), stateOf(t, again))
}

func TestTheBytesOfRecords(t *testing.T) {
	text, err := mesosev.LogHeader()
	expectText(t, "LogHeader", "1\n2", text, err)
	text, err = mesosev.LogBroken()
	expectText(t, "LogBroken", "1\nB", text, err)
	text, err = mesosev.LogEvent([]byte(" " + heartbeat))
	expectText(t, "LogEvent", record("E"+heartbeat), text, err)
	text, err = mesosev.LogCall([]byte(" " + revive))
	expectText(t, "LogCall", record("C"+revive), text, err)
	text, err = mesosev.WriteEvent([]byte(" " + heartbeat))
	expectText(t, "WriteEvent", record(heartbeat), text, err)
	var fault *mesosev.Fault
	_, err = mesosev.LogCall([]byte(heartbeat))
	expect(t, "an event is no call", true, errors.As(err, &fault) && fault.Number == 12)
}

func TestChunksAreReadAgain(t *testing.T) {
	var body []byte
	expected := []string{heartbeat, threeOffers, update}
	for _, text := range expected {
		record, err := mesosev.WriteEvent([]byte(text))
		if err != nil {
			t.Fatal(err)
		}
		for _, part := range [][]byte{record[:10], record[10:]} {
			body = append(body, join(t, func() ([]byte, error) { return mesosev.WriteChunk(part) })...)
		}
	}
	last, err := mesosev.WriteChunk(nil)
	expectText(t, "the last chunk", "0\r\n\r\n", last, err)
	first, err := mesosev.WriteChunk([]byte(strings.Repeat("\x00", 26)))
	expectText(t, "a chunk", "1a\r\n"+strings.Repeat("\x00", 26)+"\r\n", first, err)
	large, err := mesosev.WriteChunk(make([]byte, 1_000_000))
	expect(t, "the error", nil, err)
	expect(t, "the size of a large chunk", len("f4240\r\n")+1_000_000+2, len(large))
	events, err := readAll(newReader(t, strings.NewReader(string(body)+string(last)), mesosev.Chunked()))
	expectEnd(t, "the body", err)
	for i, event := range events {
		expect(t, "the text", expected[i], string(event.Text))
	}
	expect(t, "the number of events", len(expected), len(events))
}

func TestFits(t *testing.T) {
	list := func(texts ...string) []byte { return []byte("[" + strings.Join(texts, ",") + "]") }
	two := list(offer("O1", "A1"), offer("O2", "A1"))
	expect(t, "two tasks fit", nil, mesosev.Fits(two, list(task("T1", "A1", "0.5"), task("T2", "A1", "1.5"))))
	expect(t, "no task fits", nil, mesosev.Fits(list(), list()))
	// Both tasks together ask for too much, so the first resource is that of the first task.
	err := mesosev.Fits(two, list(task("T1", "A1", "0.5"), task("T2", "A1", "1.501")))
	expectRefusal(t, err, mesosev.Refusal{Number: 6, Name: "Exceeds", Entry: 1, Index: -1, Task: 0, Resource: 0, Line: "refused S6 Exceeds record 1 task 0 resource 0"})
	ports := strings.Replace(task("T2", "A1", "1"), `}}]`, `}},{"name":"ports","type":"RANGES","ranges":{"range":[{"begin":1,"end":1}]}}]`, 1)
	err = mesosev.Fits(two, list(task("T1", "A1", "1"), ports))
	expectRefusal(t, err, mesosev.Refusal{Number: 6, Name: "Exceeds", Entry: 1, Index: -1, Task: 1, Resource: 1, Line: "refused S6 Exceeds record 1 task 1 resource 1"})
	var fault *mesosev.Fault
	expect(t, "offers", true, errors.As(mesosev.Fits([]byte("{}"), list()), &fault) && fault.Record == 1)
	expect(t, "tasks", true, errors.As(mesosev.Fits(list(), []byte("[")), &fault) && fault.Record == 2)
}

func TestVersion(t *testing.T) {
	expect(t, "the number of parts", 3, len(strings.Split(mesosev.Version(), ".")))
}
