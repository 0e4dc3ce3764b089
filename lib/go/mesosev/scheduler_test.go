package mesosev_test

import (
	"bytes"
	"os"
	"os/exec"
	"path/filepath"
	"strings"
	"testing"
	"time"
)

// TestTheSchedulerOfTheExamples runs examples/scheduler.go against the live test master.
func TestTheSchedulerOfTheExamples(t *testing.T) {
	command := os.Getenv("MESOSEV")
	if command == "" {
		t.Skip("MESOSEV does not name the command mesosev")
	}
	program := filepath.Join(t.TempDir(), "scheduler")
	if out, err := exec.Command("go", "build", "-o", program, filepath.Join(examples(), "scheduler.go")).CombinedOutput(); err != nil {
		t.Fatalf("%v\n%s", err, out)
	}
	master := exec.Command(command, "master", "--port", "0", "--once", "--seconds", "60")
	master.Stdin = bytes.NewReader(example(t, "offers.recordio"))
	lines, err := master.StdoutPipe()
	if err != nil {
		t.Fatal(err)
	}
	if err := master.Start(); err != nil {
		t.Fatal(err)
	}
	defer master.Wait()
	stop := time.AfterFunc(time.Minute, func() { master.Process.Kill() })
	defer stop.Stop()
	first := make([]byte, 100)
	length, err := lines.Read(first)
	if err != nil {
		t.Fatal(err)
	}
	address := strings.TrimPrefix(strings.SplitN(string(first[:length]), "\n", 2)[0], "listening on ")
	printed, err := exec.Command(program, address).CombinedOutput()
	expectText(t, "the output", "TASK_STARTING\nTASK_RUNNING\n", printed, err)
}
