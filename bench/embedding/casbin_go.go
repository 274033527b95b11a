// Prints the nanoseconds of a request through Casbin for Go.
//
// Usage: casbin_go MODEL POLICY USER REQUESTS
package main

import (
	"fmt"
	"os"
	"strconv"
	"time"

	"github.com/casbin/casbin/v2"
)

func main() {
	enforcer, err := casbin.NewEnforcer(os.Args[1], os.Args[2])
	if err != nil {
		panic(err)
	}
	requests, _ := strconv.Atoi(os.Args[4])
	acts := []string{"read", "write"}
	begin := time.Now()
	allowed := 0
	for i := 0; i < requests; i++ {
		is, err := enforcer.Enforce("user"+os.Args[3], "data"+os.Args[3], acts[i%2])
		if err != nil {
			panic(err)
		}
		if is {
			allowed++
		}
	}
	took := time.Since(begin)
	if allowed != (requests+1)/2 {
		panic("wrong answers")
	}
	fmt.Printf("%.1f\n", float64(took.Nanoseconds())/float64(requests))
}
