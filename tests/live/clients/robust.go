// A scheduler over mesos-go's own controller, for examples/chaos: it runs one task to its end, and tears down. It counts a task as
// launched once its ACCEPT was answered, and launches it again under another name if it is lost.
//
//	GO111MODULE=off GOPATH=/usr/share/gocode go run robust.go http://127.0.0.1:5050/api/v1/scheduler
package main

import (
	"context"
	"fmt"
	"os"
	"time"

	mesos "github.com/mesos/mesos-go/api/v1/lib"
	"github.com/mesos/mesos-go/api/v1/lib/encoding/codecs"
	"github.com/mesos/mesos-go/api/v1/lib/extras/scheduler/callrules"
	"github.com/mesos/mesos-go/api/v1/lib/extras/scheduler/controller"
	"github.com/mesos/mesos-go/api/v1/lib/extras/scheduler/eventrules"
	"github.com/mesos/mesos-go/api/v1/lib/extras/store"
	"github.com/mesos/mesos-go/api/v1/lib/httpcli"
	"github.com/mesos/mesos-go/api/v1/lib/httpcli/httpsched"
	"github.com/mesos/mesos-go/api/v1/lib/scheduler"
	"github.com/mesos/mesos-go/api/v1/lib/scheduler/calls"
)

const pause = 200 * time.Millisecond

type state struct {
	caller   calls.Caller
	launches int
	running  string
	done     bool
	end      context.CancelFunc
}

// offers launches a task on the first offer, if none runs, and declines the others.
func (s *state) offers(ctx context.Context, offers []mesos.Offer) error {
	for _, offer := range offers {
		if s.running != "" {
			if err := calls.CallNoData(ctx, s.caller, calls.Decline(offer.ID)); err != nil {
				fmt.Println("DECLINE:", err)
			}
			continue
		}
		s.launches++
		name := fmt.Sprintf("T%d", s.launches)
		task := mesos.TaskInfo{Name: name, TaskID: mesos.TaskID{Value: name}, AgentID: offer.AgentID, Resources: offer.Resources}
		accept := calls.Accept(calls.OfferOperations{calls.OpLaunch(task)}.WithOffers(offer.ID))
		if err := calls.CallNoData(ctx, s.caller, accept); err != nil {
			fmt.Println("ACCEPT:", err)
			time.Sleep(pause)
			continue
		}
		s.running = name
	}
	if s.running == "" {
		return calls.CallNoData(ctx, s.caller, calls.Revive())
	}
	return nil
}

func (s *state) update(ctx context.Context, status mesos.TaskStatus) error {
	name := status.TaskID.Value
	fmt.Println("UPDATE", name, status.GetState())
	switch status.GetState() {
	case mesos.TASK_STAGING, mesos.TASK_STARTING, mesos.TASK_RUNNING:
		s.running = name
	case mesos.TASK_FINISHED:
		s.done = true
	default:
		if s.running == name {
			s.running = ""
		}
	}
	return nil
}

func (s *state) event(ctx context.Context, e *scheduler.Event) error {
	var err error
	switch e.GetType() {
	case scheduler.Event_OFFERS:
		err = s.offers(ctx, e.GetOffers().GetOffers())
	case scheduler.Event_UPDATE:
		err = s.update(ctx, e.GetUpdate().GetStatus())
	}
	if s.done {
		if err = calls.CallNoData(ctx, s.caller, &scheduler.Call{Type: scheduler.Call_TEARDOWN}); err == nil {
			s.end()
		}
	}
	return err
}

func main() {
	ctx, cancel := context.WithCancel(context.Background())
	defer cancel()
	ids := store.NewInMemorySingleton()
	caller := httpsched.NewCaller(httpcli.New(
		httpcli.Endpoint(os.Args[1]),
		httpcli.Codec(codecs.ByMediaType[codecs.MediaTypeJSON]),
		httpcli.Do(httpcli.With()),
	))
	s := &state{end: cancel}
	s.caller = callrules.New(callrules.WithFrameworkID(store.GetIgnoreErrors(ids))).Caller(caller)
	for ctx.Err() == nil {
		err := controller.Run(ctx, &mesos.FrameworkInfo{User: "root", Name: "go"}, s.caller,
			controller.WithEventHandler(eventrules.New(
				controller.LiftErrors(),
				controller.TrackSubscription(ids, 0),
				controller.AckStatusUpdates(s.caller),
			).HandleF(s.event)),
			controller.WithFrameworkID(store.GetIgnoreErrors(ids)),
			controller.WithSubscriptionTerminated(func(err error) { fmt.Println("stream ended:", err); time.Sleep(pause) }),
		)
		fmt.Println("end:", err)
		time.Sleep(pause)
	}
}
