package mesosev_test

import (
	"encoding/base64"
	"encoding/json"
	"errors"
	"fmt"
	"runtime"
	"strings"
	"sync"
	"testing"

	"mesosev"
)

// threeOffers are outstanding in the session of the tests, and one update is unacknowledged.
var threeOffers = offers(offer("O1", "A1"), offer("O2", "A1"), offer("O3", "A2"))

func raw(texts ...string) []json.RawMessage {
	var messages []json.RawMessage
	for _, text := range texts {
		messages = append(messages, json.RawMessage(text))
	}
	return messages
}

func TestANewSession(t *testing.T) {
	session := newSession(t)
	expect(t, "the state", state{Offers: []mesosev.Offer{}, Unacknowledged: []mesosev.Update{}}, stateOf(t, session))
	_, err := session.Framework()
	expect(t, "Framework", mesosev.ErrAbsent, err)
	_, err = session.OfferAt(0)
	expect(t, "OfferAt", mesosev.ErrAbsent, err)
	_, err = session.Offer("O1")
	expect(t, "Offer", mesosev.ErrAbsent, err)
	_, err = session.OwedAt(0)
	expect(t, "OwedAt", mesosev.ErrAbsent, err)
}

func TestTheStateOfASession(t *testing.T) {
	session := newSession(t, subscribed, threeOffers, update)
	bytes, _ := base64.StdEncoding.DecodeString(uuid)
	expected := state{"F1", true, 3, []mesosev.Offer{
		{ID: "O1", Agent: "A1", Hostname: "h", Text: []byte(offer("O1", "A1"))},
		{ID: "O2", Agent: "A1", Hostname: "h", Text: []byte(offer("O2", "A1"))},
		{ID: "O3", Agent: "A2", Hostname: "h", Text: []byte(offer("O3", "A2"))},
	}, []mesosev.Update{{Agent: "A1", Task: "T1", UUID: bytes}}}
	expect(t, "the state", expected, stateOf(t, session))
	text, err := session.OfferAt(2)
	expectText(t, "OfferAt", offer("O3", "A2"), text, err)
	text, err = session.Offer("O3")
	expectText(t, "Offer", offer("O3", "A2"), text, err)
	text, err = session.OwedAt(0)
	expectText(t, "OwedAt", key, text, err)
	for _, index := range []int{-1, 3, 1<<31 - 1, -1 << 31} {
		_, err = session.OfferAt(index)
		expect(t, fmt.Sprint("OfferAt ", index), mesosev.ErrAbsent, err)
		_, err = session.OwedAt(index)
		expect(t, fmt.Sprint("OwedAt ", index), mesosev.ErrAbsent, err)
		_, err = session.AcknowledgeAt(index)
		expect(t, fmt.Sprint("AcknowledgeAt ", index), mesosev.ErrAbsent, err)
	}
	session.Broken()
	state := stateOf(t, session)
	expect(t, "a break", []any{false, uint64(4), 0, 1}, []any{state.Connected, state.Entries, len(state.Offers), len(state.Unacknowledged)})
}

func TestEachRefusal(t *testing.T) {
	session := newSession(t)
	_, err := session.Said([]byte(revive))
	expectRefusal(t, err, mesosev.Refusal{Number: 1, Name: "NotSubscribed", Entry: 1, Index: -1, Task: -1, Resource: -1, Line: "refused S1 NotSubscribed record 1"})
	session = newSession(t, subscribed, threeOffers, update)
	before := stateOf(t, session)
	for _, row := range []struct {
		line, call            string
		index, task, resource int
	}{
		{"refused S1 NotSubscribed record 4", strings.Replace(revive, "F1", "F2", 1), -1, -1, -1},
		{"refused S2 NamedTwice record 4", accept("O1 O1"), -1, -1, -1},
		{"refused S3 NoSuchOffer record 4 index 1", accept("O1 O9"), 1, -1, -1},
		{"refused S4 TwoAgents record 4", accept("O1 O3"), -1, -1, -1},
		{"refused S5 WrongAgent record 4 task 1", accept("O1", task("T1", "A1", "1.0"), task("T2", "A2", "1.0")), -1, 1, -1},
		{"refused S6 Exceeds record 4 task 0 resource 0", accept("O1", task("T1", "A1", "1.001")), -1, 0, 0},
		{"refused S7 NotOwed record 4", call("ACKNOWLEDGE", strings.Replace(key, "T1", "T2", 1)), -1, -1, -1},
	} {
		words := strings.Fields(row.line)
		number := int(words[1][1] - '0')
		expected := mesosev.Refusal{Number: number, Name: words[2], Entry: 4, Index: row.index, Task: row.task, Resource: row.resource, Line: row.line}
		for _, function := range []func([]byte) ([]byte, error){session.Check, session.Said} {
			text, err := function([]byte(row.call))
			expect(t, "the text of "+row.line, []byte(nil), text)
			expectRefusal(t, err, expected)
		}
	}
	expect(t, "the state", before, stateOf(t, session))
}

func expectRefusal(t *testing.T, err error, expected mesosev.Refusal) {
	t.Helper()
	var refusal *mesosev.Refusal
	if !errors.As(err, &refusal) {
		t.Errorf("expected %s, got %v", expected.Line, err)
		return
	}
	expect(t, expected.Line, expected, *refusal)
	expect(t, "Error", expected.Line, err.Error())
}

func TestAnUpdateIsAcknowledgedByItsIndex(t *testing.T) {
	session := newSession(t, subscribed, update, strings.Replace(update, "T1", "T2", 1))
	text, err := session.AcknowledgeAt(1)
	expectText(t, "AcknowledgeAt", call("ACKNOWLEDGE", strings.Replace(key, "T1", "T2", 1)), text, err)
	text, err = session.AcknowledgeAt(0)
	expectText(t, "AcknowledgeAt", call("ACKNOWLEDGE", key), text, err)
	expect(t, "the number of updates", 0, session.OwedCount())
}

func TestACheckedCallIsNotApplied(t *testing.T) {
	session := newSession(t, subscribed, threeOffers, update)
	before := stateOf(t, session)
	allowed := accept("O1", task("T1", "A1", "1.0"))
	text, err := session.Check([]byte(allowed))
	expectText(t, "Check", allowed, text, err)
	expect(t, "the state", before, stateOf(t, session))
	text, err = session.Said([]byte(allowed))
	expectText(t, "Said", allowed, text, err)
	expect(t, "the state after it", []any{uint64(4), 2}, []any{session.Entries(), session.OfferCount()})
}

func TestFaultsOfMessages(t *testing.T) {
	session := newSession(t, subscribed, threeOffers)
	before := stateOf(t, session)
	heard := func(event []byte) ([]byte, error) { return nil, session.Heard(event) }
	for _, row := range []struct {
		function   func([]byte) ([]byte, error)
		text, line string
	}{
		{heard, "{", "fault F11 Text record 1 byte 1 End after 1"},
		{heard, "", "fault F11 Text record 1 byte 0 End after 0"},
		{heard, `{"type":"OFFERS"}`, "fault F12 Field record 1 offers Missing after 17"},
		{session.Said, "", "fault F11 Text record 1 byte 0 End after 0"},
		{session.Said, `{"type":"NONE","framework_id":{"value":"F1"}}`, "fault F12 Field record 1 type LeftOut after 45"},
		{session.Check, `{"type":"REVIVE"}`, "fault F12 Field record 1 framework_id Missing after 17"},
		{session.Subscribe, `{"user":1}`, "fault F12 Field record 1 user WrongKind after 10"},
	} {
		_, err := row.function([]byte(row.text))
		var fault *mesosev.Fault
		if !errors.As(err, &fault) {
			t.Errorf("%s: %v", row.line, err)
			continue
		}
		expect(t, "the line", row.line, fault.Line)
		expect(t, "the record of "+row.line, 1, fault.Record)
		expect(t, "the offset of "+row.line, int64(len(row.text)), fault.Offset)
	}
	expect(t, "the state", before, stateOf(t, session))
}

func TestNilSlices(t *testing.T) {
	session := newSession(t, subscribed)
	var fault *mesosev.Fault
	for name, err := range map[string]error{
		"Heard": session.Heard(nil), "Said": second(session.Said(nil)), "Check": second(session.Check(nil)),
		"Subscribe": second(session.Subscribe(nil)), "LogEvent": second(mesosev.LogEvent(nil)),
		"LogCall": second(mesosev.LogCall(nil)), "WriteEvent": second(mesosev.WriteEvent(nil)), "Fits": mesosev.Fits(nil, nil),
	} {
		expect(t, name, true, errors.As(err, &fault) && fault.Number == 11)
	}
	_, err := session.Offer("")
	expect(t, "Offer", mesosev.ErrAbsent, err)
	empty, err := mesosev.Replay(nil)
	if err != nil {
		t.Fatal(err)
	}
	expect(t, "the entries of an empty log", uint64(0), empty.Entries())
	text, err := session.Decline(nil, nil)
	expectText(t, "Decline", call("DECLINE", "{}"), text, err)
}

func second(_ []byte, err error) error { return err }

func TestTextsThatNeedMoreRoom(t *testing.T) {
	for _, size := range []int{1, 4000, 4094, 4095, 4096, 4097, 100_000} {
		name := strings.Repeat("x", size)
		session := newSession(t, strings.Replace(subscribed, "F1", name, 1), offers(offer(name, "A1")))
		framework, err := session.Framework()
		expectText(t, "the framework", name, []byte(framework), err)
		text, err := session.Offer(name)
		expectText(t, "the offer", offer(name, "A1"), text, err)
		entries := session.Entries()
		_, err = session.Accept([]string{name}, raw(task(name, "A1", "1")), nil)
		expect(t, "the error", nil, err)
		expect(t, "the entries", entries+1, session.Entries())
		record, err := mesosev.LogEvent([]byte(offers(offer(name, "A1"))))
		expect(t, "the error", nil, err)
		expect(t, "the record", true, strings.HasSuffix(string(record), offers(offer(name, "A1"))))
	}
}

func TestATextThatIsTooDeep(t *testing.T) {
	session := newSession(t, subscribed, threeOffers)
	// The executor of a task is stored whole. In a call it is deeper than in an event or alone.
	deep := strings.Repeat(`{"a":`, 126) + "{}" + strings.Repeat("}", 126)
	_, err := session.Said([]byte(accept("O1", strings.Replace(task("T1", "A1", "1"), `"name"`, `"executor":`+deep+`,"name"`, 1))))
	var fault *mesosev.Fault
	expect(t, "F11", true, errors.As(err, &fault) && fault.Reason == "Depth")
}

func TestATextThatIsTooLarge(t *testing.T) {
	text := `{"type":"ERROR","error":{"message":"` + strings.Repeat("x", mesosev.LimitMost) + `"}}`
	_, err := mesosev.WriteEvent([]byte(text))
	expect(t, "WriteEvent", mesosev.ErrNoText, err)
	_, err = mesosev.LogEvent([]byte(text))
	expect(t, "LogEvent", mesosev.ErrNoText, err)
	err = new(mesosev.Event).UnmarshalJSON([]byte(text))
	expect(t, "UnmarshalJSON", mesosev.ErrNoText, err)
}

// A built is a call that a method makes, and its canonical text.
type built struct {
	expected string
	call     func() ([]byte, error)
}

// expectCalls makes calls. Each becomes an entry of the session.
func expectCalls(t *testing.T, session *mesosev.Session, rows []built) {
	t.Helper()
	for _, row := range rows {
		entries := session.Entries()
		text, err := row.call()
		expectText(t, "the call", row.expected, text, err)
		expect(t, "the entries", entries+1, session.Entries())
	}
}

func TestCallsOfOffersAndUpdates(t *testing.T) {
	session := newSession(t, subscribed, threeOffers, update)
	tasks := []string{task("T1", "A1", "0.25"), task("T2", "A1", "0.75")}
	updates, err := session.Unacknowledged()
	expect(t, "the error", nil, err)
	expectCalls(t, session, []built{
		{accept("O1", tasks...), func() ([]byte, error) { return session.Accept([]string{"O1"}, raw(tasks...), nil) }},
		{call("ACCEPT", `{"offer_ids":[{"value":"O2"}],"filters":{"refuse_seconds":2.5}}`), func() ([]byte, error) {
			return session.Accept([]string{"O2"}, nil, &mesosev.Filters{RefuseSeconds: 2.5})
		}},
		{call("DECLINE", `{"offer_ids":[{"value":"O3"}],"filters":{"refuse_seconds":0.000002}}`), func() ([]byte, error) {
			return session.Decline([]string{"O3"}, &mesosev.Filters{RefuseSeconds: 1.5e-6})
		}},
		{call("DECLINE", `{"filters":{"refuse_seconds":1000000000000.0}}`), func() ([]byte, error) {
			return session.Decline(nil, &mesosev.Filters{RefuseSeconds: 1e12})
		}},
		{call("ACKNOWLEDGE", key), func() ([]byte, error) { return session.Acknowledge(updates[0]) }},
	})
	expect(t, "what is left", [2]int{}, [2]int{session.OfferCount(), session.OwedCount()})
}

func TestOtherCalls(t *testing.T) {
	session := newSession(t, subscribed)
	subscribe := `{"type":"SUBSCRIBE","framework_id":{"value":"F1"},"subscribe":{"framework_info":{"user":"root","name":"n","id":{"value":"F1"}}}}`
	references := `{"tasks":[{"task_id":{"value":"T1"},"agent_id":{"value":"A1"}},{"task_id":{"value":"T2"}}]}`
	executor := `"agent_id":{"value":"A1"},"executor_id":{"value":"E1"}`
	expectCalls(t, session, []built{
		{call("KILL", `{"task_id":{"value":"T1"}}`), func() ([]byte, error) { return session.Kill("T1", "") }},
		{call("KILL", `{"task_id":{"value":"a\"<é"},"agent_id":{"value":"A1"}}`), func() ([]byte, error) { return session.Kill(`a"<é`, "A1") }},
		{call("RECONCILE", `{}`), func() ([]byte, error) { return session.Reconcile() }},
		{call("RECONCILE", references), func() ([]byte, error) {
			return session.Reconcile(mesosev.TaskRef{Task: "T1", Agent: "A1"}, mesosev.TaskRef{Task: "T2"})
		}},
		{revive, session.Revive},
		{strings.Replace(revive, "REVIVE", "SUPPRESS", 1), session.Suppress},
		{call("MESSAGE", `{`+executor+`,"data":"AQI="}`), func() ([]byte, error) { return session.Message("A1", "E1", []byte{1, 2}) }},
		{call("MESSAGE", `{`+executor+`,"data":""}`), func() ([]byte, error) { return session.Message("A1", "E1", nil) }},
		{call("SHUTDOWN", `{"executor_id":{"value":"E1"},"agent_id":{"value":"A1"}}`), func() ([]byte, error) { return session.Shutdown("E1", "A1") }},
		{subscribe, func() ([]byte, error) { return session.Subscribe([]byte(info)) }},
		{strings.Replace(revive, "REVIVE", "TEARDOWN", 1), session.Teardown},
	})
}

func TestBuildersReportWhatIsNoCall(t *testing.T) {
	session := newSession(t)
	_, err := session.Teardown()
	var refusal *mesosev.Refusal
	expect(t, "S1 without a framework", true, errors.As(err, &refusal) && refusal.Number == 1)
	session = newSession(t, subscribed, threeOffers)
	before := stateOf(t, session)
	for _, name := range []string{"\xff", "a\x80", "\xed\xa0\x80"} {
		_, err = session.Kill(name, "")
		expect(t, "an identifier of invalid UTF-8", true, err != nil && strings.Contains(err.Error(), "invalid UTF-8"))
	}
	_, err = session.Accept([]string{"O1"}, raw("{"), nil)
	var syntax *json.SyntaxError
	expect(t, "a task that is no JSON", true, errors.As(err, &syntax))
	_, err = session.Accept([]string{"O1"}, raw("{}"), nil)
	var fault *mesosev.Fault
	expect(t, "a task that is no TaskInfo", true, errors.As(err, &fault) && fault.Number == 12)
	_, err = session.Decline([]string{"O1"}, &mesosev.Filters{RefuseSeconds: -1})
	expect(t, "a negative time", true, errors.As(err, &fault) && fault.Reason == "NumberRange")
	_, err = session.Acknowledge(mesosev.Update{Agent: "A1", Task: "T1"})
	expect(t, "an update without a uuid", true, errors.As(err, &fault) && fault.Place == "acknowledge.uuid")
	expect(t, "the state", before, stateOf(t, session))
}

func TestAClosedSession(t *testing.T) {
	session := newSession(t, subscribed, threeOffers, update)
	for i := 0; i < 2; i++ {
		expect(t, "Close", nil, session.Close())
		for name, err := range errorsOf(session) {
			expect(t, name, mesosev.ErrClosed, err)
		}
		session.Broken()
		expect(t, "the numbers", []any{false, uint64(0), 0, 0}, []any{session.Connected(), session.Entries(), session.OfferCount(), session.OwedCount()})
	}
	var none *mesosev.Session
	expect(t, "Close of nil", nil, none.Close())
	expect(t, "a session that was not made", mesosev.ErrClosed, new(mesosev.Session).Heard([]byte(subscribed)))
}

func TestCloseOfWhatWasNotMade(t *testing.T) {
	// A finalizer cannot be set for a part of a struct.
	made := &struct {
		count   int
		session mesosev.Session
		reader  mesosev.Reader
	}{count: 1}
	expect(t, "Close of a session", nil, made.session.Close())
	expect(t, "Close of a reader", nil, made.reader.Close())
}

// errorsOf returns the errors of all methods that return one.
func errorsOf(session *mesosev.Session) map[string]error {
	_, framework := session.Framework()
	_, offers := session.Offers()
	_, updates := session.Unacknowledged()
	return map[string]error{
		"Heard": session.Heard([]byte(subscribed)), "Said": second(session.Said([]byte(revive))), "Check": second(session.Check(nil)),
		"Subscribe": second(session.Subscribe([]byte(info))), "Framework": framework, "OfferAt": second(session.OfferAt(0)),
		"OfferAt -1": second(session.OfferAt(-1)), "Offer": second(session.Offer("O1")), "OwedAt": second(session.OwedAt(0)),
		"AcknowledgeAt": second(session.AcknowledgeAt(0)),
		"Offers":        offers, "Unacknowledged": updates, "Accept": second(session.Accept(nil, nil, nil)),
		"Decline": second(session.Decline(nil, nil)), "Acknowledge": second(session.Acknowledge(mesosev.Update{})),
		"Kill": second(session.Kill("T1", "")), "Reconcile": second(session.Reconcile()), "Revive": second(session.Revive()),
		"Suppress": second(session.Suppress()), "Message": second(session.Message("", "", nil)),
		"Shutdown": second(session.Shutdown("", "")), "Teardown": second(session.Teardown()),
	}
}

func TestAThousandSessions(t *testing.T) {
	var sessions []*mesosev.Session
	for i := 0; i < 1000; i++ {
		session, err := mesosev.NewSession()
		if err != nil {
			t.Fatal(err)
		}
		sessions = append(sessions, session)
		name := fmt.Sprint("F", i)
		if err := session.Heard([]byte(strings.Replace(subscribed, "F1", name, 1))); err != nil {
			t.Fatal(err)
		}
	}
	for i, session := range sessions {
		framework, err := session.Framework()
		expectText(t, "the framework", fmt.Sprint("F", i), []byte(framework), err)
		// The finalizer frees the other ones.
		if i%2 == 0 {
			session.Close()
		}
		sessions[i] = nil
	}
	runtime.GC()
	runtime.GC()
}

func TestSessionsInSeveralGoroutines(t *testing.T) {
	var group sync.WaitGroup
	for i := 0; i < 8; i++ {
		group.Add(1)
		go func() {
			defer group.Done()
			for j := 0; j < 50; j++ {
				session, err := mesosev.NewSession()
				if err != nil {
					t.Error(err)
					return
				}
				if err := session.Heard([]byte(subscribed)); err != nil {
					t.Error(err)
				}
				text, err := session.Revive()
				expectText(t, "the call", revive, text, err)
				record, err := mesosev.WriteEvent([]byte(heartbeat))
				expectText(t, "the record", "20\n"+heartbeat, record, err)
			}
		}()
	}
	group.Wait()
}
