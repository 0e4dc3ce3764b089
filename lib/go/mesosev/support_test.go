package mesosev_test

import (
	"errors"
	"fmt"
	"os"
	"path/filepath"
	"reflect"
	"strings"
	"testing"

	"mesosev"
)

const (
	heartbeat  = `{"type":"HEARTBEAT"}`
	subscribed = `{"type":"SUBSCRIBED","subscribed":{"framework_id":{"value":"F1"}}}`
	revive     = `{"type":"REVIVE","framework_id":{"value":"F1"}}`
	info       = `{"user":"root","name":"n"}`
	uuid       = "AAECAwQFBgcICQoLDA0ODw=="
	key        = `{"agent_id":{"value":"A1"},"task_id":{"value":"T1"},"uuid":"` + uuid + `"}`
	update     = `{"type":"UPDATE","update":{"status":{"task_id":{"value":"T1"},"state":"TASK_RUNNING","agent_id":{"value":"A1"},"uuid":"` + uuid + `"}}}`
)

// examples returns the folder of the examples: MESOSEV_EXAMPLES of the environment, or that of the sources.
func examples() string {
	if folder := os.Getenv("MESOSEV_EXAMPLES"); folder != "" {
		return folder
	}
	return filepath.Join("..", "..", "..", "examples")
}

func example(t *testing.T, name string) []byte {
	t.Helper()
	data, err := os.ReadFile(filepath.Join(examples(), name))
	if err != nil {
		t.Fatalf("MESOSEV_EXAMPLES names no folder of the examples: %v", err)
	}
	return data
}

// record returns a text as a record.
func record(text string) string {
	return fmt.Sprintf("%d\n%s", len(text), text)
}

// chunks returns data as a chunked body, in chunks of at most this size.
func chunks(data string, size int) string {
	var body strings.Builder
	for len(data) > 0 {
		if size > len(data) {
			size = len(data)
		}
		fmt.Fprintf(&body, "%x\r\n%s\r\n", size, data[:size])
		data = data[size:]
	}
	return body.String() + "0\r\n\r\n"
}

// offer returns the text of an offer of one CPU.
func offer(id, agent string) string {
	return fmt.Sprintf(`{"id":{"value":"%s"},"framework_id":{"value":"F1"},"agent_id":{"value":"%s"},"hostname":"h",`+
		`"resources":[{"name":"cpus","type":"SCALAR","scalar":{"value":1.0}}]}`, id, agent)
}

// offers returns an OFFERS.
func offers(texts ...string) string {
	return `{"type":"OFFERS","offers":{"offers":[` + strings.Join(texts, ",") + `]}}`
}

// task returns the text of a TaskInfo that needs these CPUs.
func task(id, agent, cpus string) string {
	return fmt.Sprintf(`{"name":"t","task_id":{"value":"%s"},"agent_id":{"value":"%s"},`+
		`"resources":[{"name":"cpus","type":"SCALAR","scalar":{"value":%s}}]}`, id, agent, cpus)
}

// call returns the text of a call with a body.
func call(kind, body string) string {
	return fmt.Sprintf(`{"type":"%s","framework_id":{"value":"F1"},"%s":%s}`, kind, strings.ToLower(kind), body)
}

// accept returns an ACCEPT of offers, separated by spaces, that launches tasks.
func accept(ids string, tasks ...string) string {
	named := `{"value":"` + strings.Join(strings.Fields(ids), `"},{"value":"`) + `"}`
	launch := ""
	if len(tasks) > 0 {
		launch = `,"operations":[{"type":"LAUNCH","launch":{"task_infos":[` + strings.Join(tasks, ",") + `]}}]`
	}
	return call("ACCEPT", `{"offer_ids":[`+named+`]`+launch+`}`)
}

// newSession returns a session that received these events, and is closed with the test.
func newSession(t *testing.T, events ...string) *mesosev.Session {
	t.Helper()
	session, err := mesosev.NewSession()
	if err != nil {
		t.Fatal(err)
	}
	t.Cleanup(func() { session.Close() })
	for _, event := range events {
		if err := session.Heard([]byte(event)); err != nil {
			t.Fatal(err)
		}
	}
	return session
}

// A state is what a session reports of itself.
type state struct {
	Framework      string
	Connected      bool
	Entries        uint64
	Offers         []mesosev.Offer
	Unacknowledged []mesosev.Update
}

func stateOf(t *testing.T, session *mesosev.Session) state {
	t.Helper()
	framework, err := session.Framework()
	if err != nil && !errors.Is(err, mesosev.ErrAbsent) {
		t.Fatal(err)
	}
	offers, err := session.Offers()
	if err != nil {
		t.Fatal(err)
	}
	updates, err := session.Unacknowledged()
	if err != nil {
		t.Fatal(err)
	}
	if len(offers) != session.OfferCount() || len(updates) != session.OwedCount() {
		t.Errorf("%d offers, %d updates, but the counts are %d and %d", len(offers), len(updates), session.OfferCount(), session.OwedCount())
	}
	return state{framework, session.Connected(), session.Entries(), offers, updates}
}

// expect reports a difference.
func expect(t *testing.T, name string, expected, got any) {
	t.Helper()
	if !reflect.DeepEqual(expected, got) {
		t.Errorf("%s:\n  expected: %#v\n  got:      %#v", name, expected, got)
	}
}

// expectText reports an error, or a difference of the text.
func expectText(t *testing.T, name, expected string, got []byte, err error) {
	t.Helper()
	if err != nil {
		t.Errorf("%s: %v", name, err)
		return
	}
	expect(t, name, expected, string(got))
}
