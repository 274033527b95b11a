// Prints the nanoseconds of a request through the library for C, called from Go.
//
// Usage: request MODEL POLICY USER REQUESTS
package main

/*
#cgo CFLAGS: -I${SRCDIR}/../../include
#cgo LDFLAGS: ${SRCDIR}/../../out/libcasbin.a
#include "casbin.h"
*/
import "C"

import (
	"fmt"
	"os"
	"strconv"
	"time"
	"unsafe"
)

func text(name string) ([]byte, C.size_t) {
	bytes, err := os.ReadFile(name)
	if err != nil {
		panic(err)
	}
	return append(bytes, 0), C.size_t(len(bytes))
}

func at(bytes []byte) *C.uint8_t { return (*C.uint8_t)(unsafe.Pointer(&bytes[0])) }

func main() {
	model, modelLength := text(os.Args[1])
	policy, policyLength := text(os.Args[2])
	requests, _ := strconv.Atoi(os.Args[4])
	handle := new(C.casbin_enforcer)
	var length C.size_t
	options, line := make([]byte, 1), make([]byte, 256)
	if C.casbin_open(at(model), modelLength, at(policy), policyLength, at(options), 0, handle, at(line), 256, &length) != C.CASBIN_OK {
		panic(string(line))
	}
	var bytes [2][]byte
	var ends [2][3]C.size_t
	for i, act := range []string{"read", "write"} {
		for j, field := range []string{"user" + os.Args[3], "data" + os.Args[3], act} {
			bytes[i] = append(bytes[i], field...)
			ends[i][j] = C.size_t(len(bytes[i]))
		}
	}
	var told C.casbin_decision
	allowed := 0
	begin := time.Now()
	for i := 0; i < requests; i++ {
		if C.casbin_enforce(handle, at(bytes[i%2]), ends[i%2][2], &ends[i%2][0], 3, &told) != C.CASBIN_OK {
			panic("no request")
		}
		if told.kind == C.CASBIN_ALLOW {
			allowed++
		}
	}
	took := time.Since(begin)
	if allowed != (requests+1)/2 {
		panic("wrong answers")
	}
	fmt.Printf("%.1f\n", float64(took.Nanoseconds())/float64(requests))
	C.casbin_close(handle)
}
