// Like reader.c, with many events at a time: go run reader.go, with PKG_CONFIG_PATH naming the
// folder of mesosev.pc.
package main

// #cgo pkg-config: mesosev
// #include <mesosev.h>
import "C"

import (
	"fmt"
	"io"
	"os"
	"unsafe"
)

func printText(event C.mes_event) {
	fmt.Println(C.GoStringN(event.text, C.int(event.length)))
}

// Reads standard input up to the end of the stream or a fault, and returns that status.
func read(decoder *C.mes_decoder) C.uint32_t {
	var used, count C.size_t
	var end C.mes_event
	var events [256]C.mes_event
	var piece [65536]byte
	status := C.uint32_t(C.MES_MORE)
	for status == C.MES_MORE {
		length, err := os.Stdin.Read(piece[:])
		if err == io.EOF {
			break
		}
		if err != nil {
			return status
		}
		for at := 0; at < length && status == C.MES_MORE; at += int(used) {
			status = C.mes_decoder_many(decoder, unsafe.Pointer(&piece[at]), C.size_t(length-at), &used, &events[0], C.size_t(len(events)), &count)
			for _, event := range events[:count] {
				printText(event)
			}
			if status == C.MES_EVENT {
				status = C.MES_MORE
			}
		}
	}
	status = C.mes_decoder_finish(decoder, &end)
	if status != C.MES_END {
		printText(end)
	}
	return status
}

func main() {
	var decoder *C.mes_decoder
	if C.mes_decoder_new(C.MES_LIMIT_USUAL, C.MES_PLAIN, 0, &decoder) != C.MES_GOOD {
		os.Exit(2)
	}
	status := read(decoder)
	C.mes_decoder_free(decoder)
	if status != C.MES_END {
		os.Exit(1)
	}
}
