// Launches a task on the first offer, and ends once the task runs. A proved session checks each call
// before it is sent. In lib/go/mesosev: go run ../../../examples/scheduler.go HOST:PORT, with
// PKG_CONFIG_PATH naming the folder of mesosev.pc.
package main

import (
	"bytes"
	"encoding/json"
	"fmt"
	"io"
	"log"
	"net/http"
	"os"

	"mesosev"
)

const task = `{"name":"t","task_id":{"value":"t"},"agent_id":%s,"command":{"value":"sleep 100"},"resources":[
{"name":"cpus","type":"SCALAR","scalar":{"value":0.5}},{"name":"mem","type":"SCALAR","scalar":{"value":128}}]}`

type scheduler struct {
	session    *mesosev.Session
	url        string
	stream     []string
	isLaunched bool
}

func check(err error) {
	if err != nil {
		log.Fatal(err)
	}
}

// post sends a call that the session allowed, and returns the response.
func (s *scheduler) post(call []byte, err error) *http.Response {
	check(err)
	request, err := http.NewRequest(http.MethodPost, s.url, bytes.NewReader(call))
	check(err)
	kind := []string{"application/json"}
	request.Header = http.Header{"Content-Type": kind, "Accept": kind, "Mesos-Stream-Id": s.stream}
	response, err := http.DefaultClient.Do(request)
	check(err)
	if response.StatusCode >= 300 {
		log.Fatalf("%s: %s", response.Status, call)
	}
	return response
}

// send sends a call, and discards the response.
func (s *scheduler) send(call []byte, err error) {
	s.post(call, err).Body.Close()
}

// use launches the task on the first offer, and declines the others.
func (s *scheduler) use() {
	offers, err := s.session.Offers()
	check(err)
	for _, offer := range offers {
		ids := []string{offer.ID}
		if s.isLaunched {
			s.send(s.session.Decline(ids, nil))
			continue
		}
		agent, err := json.Marshal(map[string]string{"value": offer.Agent})
		check(err)
		s.send(s.session.Accept(ids, []json.RawMessage{[]byte(fmt.Sprintf(task, agent))}, nil))
		s.isLaunched = true
	}
}

// report prints the state of the task, and acknowledges it. It returns whether the task runs.
func (s *scheduler) report(event mesosev.Event) bool {
	var read struct {
		Update struct{ Status struct{ State string } }
	}
	check(json.Unmarshal(event.Text, &read))
	fmt.Println(read.Update.Status.State)
	updates, err := s.session.Unacknowledged()
	check(err)
	for _, update := range updates {
		s.send(s.session.Acknowledge(update))
	}
	return read.Update.Status.State == "TASK_RUNNING"
}

func main() {
	if len(os.Args) != 2 {
		log.Fatal("usage: scheduler HOST:PORT")
	}
	session, err := mesosev.NewSession()
	check(err)
	defer session.Close()
	s := scheduler{session: session, url: "http://" + os.Args[1] + "/api/v1/scheduler"}
	response := s.post(session.Subscribe([]byte(`{"user":"root","name":"proved"}`)))
	defer response.Body.Close()
	s.stream = response.Header.Values("Mesos-Stream-Id")
	reader, err := mesosev.NewReader(response.Body)
	check(err)
	defer reader.Close()
	for {
		event, err := reader.Next()
		if err == io.EOF {
			return
		}
		check(err)
		check(session.Heard(event.Text))
		switch event.Type {
		case mesosev.TypeOffers:
			s.use()
		case mesosev.TypeUpdate:
			if s.report(event) {
				s.send(session.Teardown())
				return
			}
		}
	}
}
