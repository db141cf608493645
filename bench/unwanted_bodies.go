// Sends a desk requests of which it wants no body, by Go's net/http: a POST to an unknown path, a GET of a list, a POST
// of a longer body than an audit file may have, and one of a body in chunks. Of each kind as many are sent, with bodies
// of one byte to 1 MB, and each has to get its answer whole.
//
// usage: go run bench/unwanted_bodies.go [PROGRAM [COUNT]]
//
// Run it at the top of the repository. Without words it takes the built hotel_desk, and sends 2,000 of each kind. It
// needs Debian's golang-go. Prints of each kind how many got no answer, and the first fault of these; and at last
// 'N answered, M not'; status 1 where any wasn't.
package main

import (
	"bytes"
	"fmt"
	"io"
	"net"
	"net/http"
	"os"
	"os/exec"
	"strconv"
	"time"
)

// kind is one of requests: the sizes of its bodies are taken in turn.
type kind struct {
	method, path string
	chunked      bool
	sizes        []int
	status       int
	text         string
}

var kinds = []kind{
	{"POST", "/nowhere", false, []int{1, 5000, 200000, 262144}, 404, "not found\n"},
	{"GET", "/in-house", false, []int{1, 5000, 200000, 262144}, 200, "room,party,guest,kind,depart,secured\n"},
	{"POST", "/audit", false, []int{262145, 300000, 600000, 1000000}, 413, "too large\n"},
	{"POST", "/audit", true, []int{1, 5000, 200000, 900000}, 501, "not implemented\n"},
}

func must(err error) {
	if err != nil {
		fmt.Println(err)
		os.Exit(1)
	}
}

// serve starts the program for so many connections on a port that nothing has, and waits until it listens.
func serve(program string, count int) (*exec.Cmd, string) {
	probe, err := net.Listen("tcp", "127.0.0.1:0")
	must(err)
	port := fmt.Sprint(probe.Addr().(*net.TCPAddr).Port)
	probe.Close()
	server := exec.Command(program, "--seed-file", "/dev/zero", "serve", port, fmt.Sprint(count))
	said, err := server.StdoutPipe()
	must(err)
	must(server.Start())
	_, err = said.Read(make([]byte, 64))
	must(err)
	return server, "http://127.0.0.1:" + port
}

// asked sends a request of this kind, and is what is wrong with its answer, or nothing.
func asked(client *http.Client, base string, sent kind, size int) error {
	var body io.Reader = bytes.NewReader(make([]byte, size))
	if sent.chunked {
		// Of another type than those of which net/http knows the length.
		body = io.MultiReader(body)
	}
	request, err := http.NewRequest(sent.method, base+sent.path, body)
	must(err)
	response, err := client.Do(request)
	if err != nil {
		return err
	}
	defer response.Body.Close()
	said, err := io.ReadAll(response.Body)
	if err == nil && (response.StatusCode != sent.status || string(said) != sent.text) {
		err = fmt.Errorf("wanted %d %q, and got %d %q", sent.status, sent.text, response.StatusCode, said)
	}
	return err
}

func main() {
	given := []string{"crates/hotel_desk/out/hotel_desk", "2000"}
	copy(given, os.Args[1:])
	count, err := strconv.Atoi(given[1])
	must(err)
	server, base := serve(given[0], count*len(kinds))
	client := &http.Client{Timeout: 20 * time.Second}
	lost := 0
	for _, sent := range kinds {
		faults := []error{}
		for number := 0; number < count; number++ {
			if err := asked(client, base, sent, sent.sizes[number%len(sent.sizes)]); err != nil {
				faults = append(faults, err)
			}
		}
		fmt.Printf("%s %s %d: %d of %d without an answer\n", sent.method, sent.path, sent.status, len(faults), count)
		if len(faults) > 0 {
			fmt.Println(faults[0])
		}
		lost += len(faults)
	}
	server.Process.Kill()
	fmt.Printf("%d answered, %d not\n", count*len(kinds)-lost, lost)
	if lost > 0 {
		os.Exit(1)
	}
}
