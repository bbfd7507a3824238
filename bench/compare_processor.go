// Passes operations to the BulkProcessor of Go's olivere/elastic: compare_processor PORT FILE WORKERS. It repeats requests by
// its exponential backoff from 10 ms to 1 s. Prints as JSON the numbers of the operations that it reports as failed.
package main

import (
	"bufio"
	"context"
	"encoding/json"
	"fmt"
	"os"
	"strconv"
	"sync"
	"time"

	"gopkg.in/olivere/elastic.v5"
)

func check(err error) {
	if err != nil {
		fmt.Fprintln(os.Stderr, err)
		os.Exit(1)
	}
}

// The number of the operation of a request.
func numberOf(request elastic.BulkableRequest) int {
	lines, err := request.Source()
	check(err)
	var source struct{ Seq int }
	check(json.Unmarshal([]byte(lines[len(lines)-1]), &source))
	return source.Seq
}

func main() {
	client, err := elastic.NewClient(elastic.SetURL("http://127.0.0.1:"+os.Args[1]), elastic.SetSniff(false), elastic.SetHealthcheck(false))
	check(err)
	workers, err := strconv.Atoi(os.Args[3])
	check(err)
	var lock sync.Mutex
	failed := []int{}
	after := func(id int64, requests []elastic.BulkableRequest, response *elastic.BulkResponse, err error) {
		lock.Lock()
		defer lock.Unlock()
		if err != nil {
			for _, request := range requests {
				failed = append(failed, numberOf(request))
			}
			return
		}
		for _, item := range response.Failed() {
			number, err := strconv.Atoi(item.Type)
			check(err)
			failed = append(failed, number)
		}
	}
	processor, err := client.BulkProcessor().Workers(workers).BulkActions(500).BulkSize(-1).After(after).
		Backoff(elastic.NewExponentialBackoff(10*time.Millisecond, time.Second)).Do(context.Background())
	check(err)
	file, err := os.Open(os.Args[2])
	check(err)
	lines := bufio.NewScanner(file)
	for lines.Scan() {
		var action struct {
			Index struct {
				Index string `json:"_index"`
				ID    string `json:"_id"`
			} `json:"index"`
		}
		check(json.Unmarshal(lines.Bytes(), &action))
		lines.Scan()
		source := json.RawMessage(append([]byte{}, lines.Bytes()...))
		processor.Add(elastic.NewBulkIndexRequest().Index(action.Index.Index).Type("_doc").Id(action.Index.ID).Doc(source))
	}
	check(processor.Close())
	check(json.NewEncoder(os.Stdout).Encode(failed))
}
