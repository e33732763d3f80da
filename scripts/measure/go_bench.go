// Measures the official Go driver's package bson on one document, as `core_bench documents` measures bson_wire:
// Unmarshal into a bson.D, and Marshal of what was read.
package main

import (
	"fmt"
	"os"
	"strconv"
	"time"

	"go.mongodb.org/mongo-driver/bson"
)

const batches = 5

func quickest(rounds int, once func() error) int64 {
	best := int64(1) << 62
	for b := 0; b < batches; b++ {
		start := time.Now()
		for i := 0; i < rounds; i++ {
			if err := once(); err != nil {
				fmt.Fprintln(os.Stderr, err)
				os.Exit(1)
			}
		}
		if took := time.Since(start).Nanoseconds() / int64(rounds); took < best {
			best = took
		}
	}
	return best
}

func main() {
	raw, err := os.ReadFile(os.Args[1])
	if err != nil {
		fmt.Fprintln(os.Stderr, err)
		os.Exit(1)
	}
	rounds, _ := strconv.Atoi(os.Args[2])
	decode := quickest(rounds, func() error {
		var document bson.D
		return bson.Unmarshal(raw, &document)
	})
	var document bson.D
	if err := bson.Unmarshal(raw, &document); err != nil {
		os.Exit(1)
	}
	encode := quickest(rounds, func() error {
		written, err := bson.Marshal(document)
		if err == nil && len(written) != len(raw) {
			err = fmt.Errorf("%d bytes written, %d read", len(written), len(raw))
		}
		return err
	})
	fmt.Println("decode", decode, len(raw))
	fmt.Println("encode", encode, len(raw))
}
