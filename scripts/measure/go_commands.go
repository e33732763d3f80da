// Sends so many inserts of {_id: 7}, or finds of it, by the official Go driver, over the connections that a client keeps: from
// one goroutine one after another, or from so many at once, that number of them in all.
//
// usage: go_commands PORT COUNT insert|find LANES
package main

import (
	"context"
	"fmt"
	"os"
	"strconv"
	"sync"

	"go.mongodb.org/mongo-driver/bson"
	"go.mongodb.org/mongo-driver/mongo"
	"go.mongodb.org/mongo-driver/mongo/options"
)

func fail(err error) {
	if err != nil {
		fmt.Fprintln(os.Stderr, err)
		os.Exit(1)
	}
}

func insert(background context.Context, collection *mongo.Collection, document bson.D) {
	_, err := collection.InsertOne(background, document)
	fail(err)
}

func find(background context.Context, collection *mongo.Collection, document bson.D) {
	cursor, err := collection.Find(background, document)
	fail(err)
	var found []bson.D
	fail(cursor.All(background, &found))
	if len(found) != 1 {
		fail(fmt.Errorf("found %d documents", len(found)))
	}
}

func main() {
	background := context.Background()
	count, err := strconv.Atoi(os.Args[2])
	fail(err)
	uri := "mongodb://127.0.0.1:" + os.Args[1] + "/?w=majority"
	client, err := mongo.Connect(background, options.Client().ApplyURI(uri))
	fail(err)
	collection := client.Database("test").Collection("a")
	document := bson.D{{Key: "_id", Value: int32(7)}}
	command := insert
	if os.Args[3] == "find" {
		command = find
	}
	lanes, err := strconv.Atoi(os.Args[4])
	fail(err)
	var running sync.WaitGroup
	for lane := 0; lane < lanes; lane++ {
		running.Add(1)
		go func(lane int) {
			defer running.Done()
			for i := lane; i < count; i += lanes {
				command(background, collection, document)
			}
		}(lane)
	}
	running.Wait()
	fail(client.Disconnect(background))
}
