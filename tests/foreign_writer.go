// A third-party client of `relay serve`: Go's olivere/elastic, version 5, and its BulkProcessor, as a service uses them. It reads what
// to write as JSON from standard input, and prints what it believes of each operation, one JSON text per line: whether it was
// written, its action and its item. Nothing of the client is skipped: it checks the server's health and asks for its nodes first.
package main

import (
	"context"
	"encoding/json"
	"fmt"
	"os"

	"gopkg.in/olivere/elastic.v5"
)

type action struct {
	Index  string          `json:"_index"`
	ID     *string         `json:"_id"`
	Kind   string          `json:"_op_type"`
	Source json.RawMessage `json:"_source"`
}

type wanted struct {
	Port    int
	Way     string
	Count   int
	Actions []action
}

type item struct {
	Index   string      `json:"_index"`
	ID      string      `json:"_id"`
	Version int64       `json:"_version"`
	Status  int         `json:"status,omitempty"`
	Error   interface{} `json:"error,omitempty"`
}

func check(err error) {
	if err != nil {
		fmt.Fprintln(os.Stderr, err)
		os.Exit(1)
	}
}

func believe(good bool, kind string, said item) {
	check(json.NewEncoder(os.Stdout).Encode([]interface{}{good, map[string]item{kind: said}}))
}

// What a call for one document failed with.
func believeFailure(kind string, it action, err error) {
	failure, known := err.(*elastic.Error)
	if !known || failure.Details == nil {
		check(err)
	}
	said := item{Index: it.Index, Status: failure.Status, Error: failure.Details}
	if it.ID != nil {
		said.ID = *it.ID
	}
	believe(false, kind, said)
}

func oneByOne(client *elastic.Client, all wanted) {
	for _, it := range all.Actions {
		if it.Kind == "delete" {
			done, err := client.Delete().Index(it.Index).Type("_doc").Id(*it.ID).Do(context.Background())
			if err != nil {
				believeFailure("delete", it, err)
				continue
			}
			believe(true, "delete", item{Index: done.Index, ID: done.Id, Version: int64(done.Version)})
			continue
		}
		call := client.Index().Index(it.Index).Type("_doc").BodyJson(it.Source)
		if it.ID != nil {
			call = call.Id(*it.ID)
		}
		done, err := call.Do(context.Background())
		if err != nil {
			believeFailure("index", it, err)
			continue
		}
		believe(true, "index", item{Index: done.Index, ID: done.Id, Version: int64(done.Version)})
	}
}

func requestOf(it action) elastic.BulkableRequest {
	if it.Kind == "delete" {
		return elastic.NewBulkDeleteRequest().Index(it.Index).Type("_doc").Id(*it.ID)
	}
	request := elastic.NewBulkIndexRequest().Index(it.Index).Type("_doc").Doc(it.Source)
	if it.ID != nil {
		request = request.Id(*it.ID)
	}
	return request
}

func believeAll(response *elastic.BulkResponse) {
	for _, answer := range response.Items {
		for kind, said := range answer {
			shown := item{Index: said.Index, ID: said.Id, Version: said.Version, Status: said.Status}
			if said.Error != nil {
				shown.Error = said.Error
			}
			believe(said.Error == nil && said.Status <= 299, kind, shown)
		}
	}
}

// One call of the bulk API for each Count actions.
func whole(client *elastic.Client, all wanted) {
	for at := 0; at < len(all.Actions); at += all.Count {
		bulk := client.Bulk()
		for _, it := range all.Actions[at:] {
			if bulk.NumberOfActions() == all.Count {
				break
			}
			bulk.Add(requestOf(it))
		}
		response, err := bulk.Do(context.Background())
		check(err)
		believeAll(response)
	}
}

func processor(client *elastic.Client, all wanted) {
	after := func(id int64, requests []elastic.BulkableRequest, response *elastic.BulkResponse, err error) {
		check(err)
		believeAll(response)
	}
	bulk, err := client.BulkProcessor().Workers(1).BulkActions(all.Count).BulkSize(-1).After(after).Do(context.Background())
	check(err)
	for _, it := range all.Actions {
		bulk.Add(requestOf(it))
	}
	check(bulk.Close())
}

func main() {
	var all wanted
	check(json.NewDecoder(os.Stdin).Decode(&all))
	client, err := elastic.NewClient(elastic.SetURL(fmt.Sprintf("http://127.0.0.1:%d", all.Port)))
	check(err)
	ways := map[string]func(*elastic.Client, wanted){"one_by_one": oneByOne, "whole": whole, "processor": processor}
	ways[all.Way](client, all)
}
