package mesosev

import (
	"encoding/json"
	"errors"
	"fmt"
	"strings"
	"unicode/utf8"
)

// Filters are those of an ACCEPT or a DECLINE.
type Filters struct {
	// RefuseSeconds is the time in seconds for which the master does not offer the unused
	// resources to the framework again. It is rounded to the nearest microsecond.
	RefuseSeconds float64 `json:"refuse_seconds"`
}

// A TaskRef names a task in a RECONCILE. Agent is empty if it is not known.
type TaskRef struct {
	Task, Agent string
}

// An identifier is the JSON form of an identifier.
type identifier struct {
	Value string `json:"value"`
}

// MarshalJSON rejects invalid UTF-8: encoding/json would replace it, and so name something else.
func (i identifier) MarshalJSON() ([]byte, error) {
	if !utf8.ValidString(i.Value) {
		return nil, fmt.Errorf("mesosev: the identifier %q is invalid UTF-8", i.Value)
	}
	return json.Marshal(map[string]string{"value": i.Value})
}

// Accept makes an ACCEPT of the offers with these identifiers, which launches the tasks on them, each
// the JSON text of a TaskInfo. Without tasks it declines the offers. Filters may be nil.
//
// Each method that makes a call checks and applies it, and returns its canonical text, as Said does.
// It also returns an error for an identifier that is invalid UTF-8, and that of encoding/json for a
// task that is no JSON.
func (s *Session) Accept(offers []string, tasks []json.RawMessage, filters *Filters) ([]byte, error) {
	body := offersBody(offers, filters)
	if len(tasks) > 0 {
		launch := map[string]any{"type": "LAUNCH", "launch": map[string]any{"task_infos": tasks}}
		body["operations"] = []any{launch}
	}
	return s.say("ACCEPT", body)
}

// Decline makes a DECLINE of the offers with these identifiers. Filters may be nil.
func (s *Session) Decline(offers []string, filters *Filters) ([]byte, error) {
	return s.say("DECLINE", offersBody(offers, filters))
}

// Acknowledge makes the ACKNOWLEDGE of an update, such as one of Unacknowledged.
func (s *Session) Acknowledge(update Update) ([]byte, error) {
	return s.say("ACKNOWLEDGE", acknowledgement{identifier{update.Agent}, identifier{update.Task}, update.UUID})
}

// Kill makes a KILL of a task. The agent is empty if it is not known.
func (s *Session) Kill(task, agent string) ([]byte, error) {
	return s.say("KILL", taskBody(TaskRef{task, agent}))
}

// Reconcile makes a RECONCILE of these tasks, or of all tasks if there are none.
func (s *Session) Reconcile(tasks ...TaskRef) ([]byte, error) {
	named := make([]any, 0, len(tasks))
	for _, task := range tasks {
		named = append(named, taskBody(task))
	}
	return s.say("RECONCILE", map[string]any{"tasks": named})
}

// Revive makes a REVIVE: the master may offer resources again that were declined.
func (s *Session) Revive() ([]byte, error) {
	return s.say("REVIVE", nil)
}

// Suppress makes a SUPPRESS: the master makes no offers until a REVIVE.
func (s *Session) Suppress() ([]byte, error) {
	return s.say("SUPPRESS", nil)
}

// Message makes a MESSAGE of bytes to an executor.
func (s *Session) Message(agent, executor string, data []byte) ([]byte, error) {
	if data == nil {
		data = []byte{}
	}
	return s.say("MESSAGE", map[string]any{"agent_id": identifier{agent}, "executor_id": identifier{executor}, "data": data})
}

// Shutdown makes a SHUTDOWN of an executor.
func (s *Session) Shutdown(executor, agent string) ([]byte, error) {
	return s.say("SHUTDOWN", map[string]any{"executor_id": identifier{executor}, "agent_id": identifier{agent}})
}

// Teardown makes a TEARDOWN of the framework.
func (s *Session) Teardown() ([]byte, error) {
	return s.say("TEARDOWN", nil)
}

// say makes and applies a call of the session's framework. A nil body is left out.
func (s *Session) say(kind string, body any) ([]byte, error) {
	// Without a framework the session refuses the call (S1).
	framework, err := s.Framework()
	if err != nil && !errors.Is(err, ErrAbsent) {
		return nil, err
	}
	call := map[string]any{"type": kind, "framework_id": identifier{framework}}
	if body != nil {
		call[strings.ToLower(kind)] = body
	}
	text, err := json.Marshal(call)
	if err != nil {
		return nil, err
	}
	return s.Said(text)
}

// offersBody returns the body of an ACCEPT without operations, or of a DECLINE.
func offersBody(offers []string, filters *Filters) map[string]any {
	named := make([]identifier, 0, len(offers))
	for _, id := range offers {
		named = append(named, identifier{id})
	}
	body := map[string]any{"offer_ids": named}
	if filters != nil {
		body["filters"] = filters
	}
	return body
}

// taskBody returns the JSON form of a TaskRef.
func taskBody(task TaskRef) map[string]any {
	body := map[string]any{"task_id": identifier{task.Task}}
	if task.Agent != "" {
		body["agent_id"] = identifier{task.Agent}
	}
	return body
}
