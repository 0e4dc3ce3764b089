package mesosev

import (
	"errors"
	"testing"
)

func TestTheErrorOfEachStatus(t *testing.T) {
	for status, expected := range map[uint32]error{0: nil, 35: ErrNoText, 37: ErrAbsent, 102: ErrClosed} {
		if _, err := outcome(status, nil); err != expected {
			t.Errorf("status %d: %v", status, err)
		}
	}
	for status := uint32(1); status <= 16; status++ {
		_, err := outcome(status, nil)
		fault, is := err.(*Fault)
		if !is || fault.Number != int(status) || fault.Name == "" || fault.Line != "" {
			t.Errorf("status %d: %+v", status, err)
		}
	}
	for status := uint32(201); status <= 208; status++ {
		_, err := outcome(status, nil)
		refusal, is := err.(*Refusal)
		if !is || refusal.Number != int(status-200) || refusal.Name == "" || refusal.Index != -1 {
			t.Errorf("status %d: %+v", status, err)
		}
	}
	for _, status := range []uint32{17, 32, 36, 100, 200, 209, 1 << 31} {
		if _, err := outcome(status, nil); err == nil {
			t.Errorf("status %d is no error", status)
		}
	}
}

func TestFailedAllocations(t *testing.T) {
	for status := uint32(1); status <= 208; status++ {
		_, err := outcome(status, nil)
		if errors.Is(err, ErrNoMemory) != (status == 13 || status == 208) {
			t.Errorf("status %d: %v", status, err)
		}
	}
	_, err := outcome(13, nil)
	if err.Error() != "fault F13 NoMemory" {
		t.Error(err)
	}
	_, err = outcome(208, nil)
	if err.Error() != "refused S8 NoMemory" {
		t.Error(err)
	}
}

func TestTheLinesOfFaults(t *testing.T) {
	for line, expected := range map[string]Fault{
		"fault F13 NoMemory after 7":                          {Offset: 7},
		"fault F1 BadChunkLine after 99999999999999999999":    {Offset: 1<<63 - 1},
		"fault F11 Text record 2 byte 5 Depth after 30":       {Record: 2, Place: "5", Reason: "Depth", Offset: 30},
		"fault F12 Field record 1 . WrongKind after 4":        {Record: 1, Place: ".", Reason: "WrongKind", Offset: 4},
		"fault F12 Field record 3 a.b[0].c Missing after 400": {Record: 3, Place: "a.b[0].c", Reason: "Missing", Offset: 400},
		"fault F16 BadEntry record 4 after 9":                 {Record: 4, Offset: 9},
		"another line":                                        {},
	} {
		expected.Number, expected.Name, expected.Line = 1, "BadChunkLine", line
		if got := *newFault(1, line); got != expected {
			t.Errorf("%s: %+v", line, got)
		}
	}
}
