// A scheduler over mesos-go's own controller: it subscribes, launches a task on each of two offers, acknowledges, kills one task once
// both run, reconciles, and tears down. It prints a line for each event but HEARTBEAT.
//
//	GO111MODULE=off GOPATH=/usr/share/gocode go run scheduler.go http://127.0.0.1:5050/api/v1/scheduler
package main

import (
	"context"
	"fmt"
	"log"
	"os"
	"time"

	mesos "github.com/mesos/mesos-go/api/v1/lib"
	"github.com/mesos/mesos-go/api/v1/lib/encoding/codecs"
	"github.com/mesos/mesos-go/api/v1/lib/extras/scheduler/callrules"
	"github.com/mesos/mesos-go/api/v1/lib/extras/scheduler/controller"
	"github.com/mesos/mesos-go/api/v1/lib/extras/scheduler/eventrules"
	"github.com/mesos/mesos-go/api/v1/lib/extras/store"
	"github.com/mesos/mesos-go/api/v1/lib/httpcli"
	"github.com/mesos/mesos-go/api/v1/lib/httpcli/httpsched"
	"github.com/mesos/mesos-go/api/v1/lib/scheduler"
	"github.com/mesos/mesos-go/api/v1/lib/scheduler/calls"
)

type state struct {
	caller   calls.Caller
	launched int
	running  map[string]bool
	end      context.CancelFunc
}

func (s *state) send(ctx context.Context, call *scheduler.Call) error {
	err := calls.CallNoData(ctx, s.caller, call)
	if err != nil {
		log.Printf("%v: %v", call.GetType(), err)
	}
	return err
}

func (s *state) offers(ctx context.Context, offers []mesos.Offer) error {
	for _, offer := range offers {
		if s.launched == 2 {
			if err := s.send(ctx, calls.Decline(offer.ID)); err != nil {
				return err
			}
			continue
		}
		s.launched++
		name := fmt.Sprintf("T%d", s.launched)
		task := mesos.TaskInfo{Name: name, TaskID: mesos.TaskID{Value: name}, AgentID: offer.AgentID, Resources: offer.Resources}
		accept := calls.Accept(calls.OfferOperations{calls.OpLaunch(task)}.WithOffers(offer.ID))
		if err := s.send(ctx, accept); err != nil {
			return err
		}
	}
	return nil
}

func (s *state) update(ctx context.Context, status mesos.TaskStatus) error {
	name := status.TaskID.Value
	fmt.Println("UPDATE", name, status.GetState(), status.GetReason())
	switch {
	case status.GetReason() == mesos.REASON_RECONCILIATION:
		if err := s.send(ctx, &scheduler.Call{Type: scheduler.Call_TEARDOWN}); err != nil {
			return err
		}
		s.end()
	case status.GetState() == mesos.TASK_RUNNING:
		s.running[name] = true
		if len(s.running) == 2 {
			return s.send(ctx, calls.Kill("T1", status.GetAgentID().GetValue()))
		}
	case status.GetState() == mesos.TASK_KILLED:
		return s.send(ctx, calls.Reconcile(calls.ReconcileTasks(map[string]string{"T2": ""})))
	}
	return nil
}

func (s *state) event(ctx context.Context, e *scheduler.Event) error {
	switch e.GetType() {
	case scheduler.Event_HEARTBEAT:
	case scheduler.Event_OFFERS:
		fmt.Println("OFFERS", len(e.GetOffers().GetOffers()))
		return s.offers(ctx, e.GetOffers().GetOffers())
	case scheduler.Event_UPDATE:
		return s.update(ctx, e.GetUpdate().GetStatus())
	default:
		fmt.Println(e.GetType())
	}
	return nil
}

func main() {
	ctx, cancel := context.WithTimeout(context.Background(), 20*time.Second)
	defer cancel()
	ids := store.NewInMemorySingleton()
	caller := httpsched.NewCaller(httpcli.New(
		httpcli.Endpoint(os.Args[1]),
		httpcli.Codec(codecs.ByMediaType[codecs.MediaTypeJSON]),
		httpcli.Do(httpcli.With()),
	))
	s := &state{running: map[string]bool{}, end: cancel}
	s.caller = callrules.New(callrules.WithFrameworkID(store.GetIgnoreErrors(ids))).Caller(caller)
	err := controller.Run(ctx, &mesos.FrameworkInfo{User: "root", Name: "go"}, s.caller,
		controller.WithEventHandler(eventrules.New(
			controller.LiftErrors(),
			controller.TrackSubscription(ids, 0),
			controller.AckStatusUpdates(s.caller),
		).HandleF(s.event)),
		controller.WithSubscriptionTerminated(func(err error) { fmt.Println("stream ended:", err) }),
	)
	fmt.Println("end:", err)
}
