package mesosev_test

import (
	"encoding/json"
	"fmt"
	"io"
	"log"
	"strings"

	"mesosev"
)

func ExampleReader() {
	stream := "20\n" + `{"type":"HEARTBEAT"}` + "54\n" + `{"type":"RESCIND","rescind":{"offer_id":{"value":"O"}}}`
	reader, err := mesosev.NewReader(strings.NewReader(stream))
	if err != nil {
		log.Fatal(err)
	}
	defer reader.Close()
	for {
		event, err := reader.Next()
		if err == io.EOF {
			break
		}
		if err != nil {
			fmt.Println(err)
			break
		}
		fmt.Println(event.Name, string(event.Text))
	}
	// Output:
	// HEARTBEAT {"type":"HEARTBEAT"}
	// fault F11 Text record 2 byte 54 End after 80
}

func ExampleSession() {
	session, err := mesosev.NewSession()
	if err != nil {
		log.Fatal(err)
	}
	defer session.Close()
	events := []string{
		`{"type":"SUBSCRIBED","subscribed":{"framework_id":{"value":"F1"}}}`,
		`{"type":"OFFERS","offers":{"offers":[{"id":{"value":"O1"},"framework_id":{"value":"F1"},"agent_id":{"value":"A1"},` +
			`"hostname":"h","resources":[{"name":"cpus","type":"SCALAR","scalar":{"value":1}}]}]}}`,
	}
	for _, event := range events {
		if err := session.Heard([]byte(event)); err != nil {
			log.Fatal(err)
		}
	}
	task := `{"name":"t","task_id":{"value":"T1"},"agent_id":{"value":"A1"},"resources":[{"name":"cpus","type":"SCALAR","scalar":{"value":1.001}}]}`
	_, err = session.Accept([]string{"O1"}, []json.RawMessage{[]byte(task)}, nil)
	fmt.Println(err)
	call, err := session.Decline([]string{"O1"}, &mesosev.Filters{RefuseSeconds: 5})
	fmt.Println(string(call), err)
	// Output:
	// refused S6 Exceeds record 3 task 0 resource 0
	// {"type":"DECLINE","framework_id":{"value":"F1"},"decline":{"offer_ids":[{"value":"O1"}],"filters":{"refuse_seconds":5.0}}} <nil>
}
