// Four commands by the Go driver under Stable API version 1, against the server of a connection string.
//
// usage: with_go URI
//
// Prints a line for each, and ends with 0 where all went well.
package main

import (
	"context"
	"fmt"
	"os"
	"time"

	"go.mongodb.org/mongo-driver/bson"
	"go.mongodb.org/mongo-driver/mongo"
	"go.mongodb.org/mongo-driver/mongo/options"
)

func run(ctx context.Context, uri string) error {
	api := options.ServerAPI(options.ServerAPIVersion1)
	client, err := mongo.Connect(ctx, options.Client().ApplyURI(uri).SetServerAPIOptions(api))
	if err != nil {
		return err
	}
	defer client.Disconnect(ctx)
	people := client.Database("test").Collection("people")
	seven := bson.D{{Key: "_id", Value: 7}}
	inserted, err := people.InsertOne(ctx, bson.D{{Key: "_id", Value: 7}, {Key: "name", Value: "Ada"}})
	if err != nil {
		return err
	}
	fmt.Println("insert", inserted.InsertedID)
	change := bson.D{{Key: "$set", Value: bson.D{{Key: "name", Value: "Eve"}}}}
	updated, err := people.UpdateOne(ctx, seven, change)
	if err != nil {
		return err
	}
	fmt.Println("update", updated.MatchedCount, updated.ModifiedCount)
	cursor, err := people.Find(ctx, seven)
	if err != nil {
		return err
	}
	var found []bson.M
	if err := cursor.All(ctx, &found); err != nil {
		return err
	}
	fmt.Println("find", len(found))
	deleted, err := people.DeleteOne(ctx, seven)
	if err != nil {
		return err
	}
	fmt.Println("delete", deleted.DeletedCount)
	return nil
}

func main() {
	if len(os.Args) != 2 {
		os.Exit(2)
	}
	ctx, cancel := context.WithTimeout(context.Background(), 30*time.Second)
	defer cancel()
	if err := run(ctx, os.Args[1]); err != nil {
		fmt.Fprintln(os.Stderr, err)
		os.Exit(1)
	}
}
