// Reads docs/openapi.yaml by kin-openapi, a library of another language and of other hands: the file and its examples
// are valid. Sends a desk the examples in the order of `x-order`: the library finds the route of each request, and takes
// it where it isn't answered 400; the answer is that of its example, and the library takes that too.
//
// usage: GO111MODULE=off GOPATH=/usr/share/gocode go run bench/openapi_kin.go [PROGRAM [FILE]]
//
// Run it at the top of the repository. Without words it takes the built hotel_desk and docs/openapi.yaml. It needs
// Debian's golang-go and golang-github-getkin-kin-openapi-dev. Prints what differs, and at last 'N answers as
// described'; status 1 where something differs.
package main

import (
	"bytes"
	"context"
	"encoding/json"
	"fmt"
	"io"
	"net"
	"net/http"
	"net/url"
	"os"
	"os/exec"
	"strings"
	"time"

	"github.com/getkin/kin-openapi/openapi3"
	"github.com/getkin/kin-openapi/openapi3filter"
	"github.com/getkin/kin-openapi/routers/gorillamux"
)

// text reads a body as the string that its schema is of.
func text(body io.Reader, _ http.Header, _ *openapi3.SchemaRef, _ openapi3filter.EncodingFn) (interface{}, error) {
	all, err := io.ReadAll(body)
	return string(all), err
}

func must(err error) {
	if err != nil {
		fmt.Println(err)
		os.Exit(1)
	}
}

// serve starts the program with a seed of zeros on a port that nothing has, and waits until it listens.
func serve(program string) (*exec.Cmd, string) {
	probe, err := net.Listen("tcp", "127.0.0.1:0")
	must(err)
	port := fmt.Sprint(probe.Addr().(*net.TCPAddr).Port)
	probe.Close()
	server := exec.Command(program, "--seed-file", "/dev/zero", "serve", port, "1000")
	said, err := server.StdoutPipe()
	must(err)
	must(server.Start())
	_, err = said.Read(make([]byte, 64))
	must(err)
	return server, "http://127.0.0.1:" + port
}

// operation is a method on a path, of this name.
func operation(doc *openapi3.T, name string) (path, method string, found *openapi3.Operation) {
	for path, item := range doc.Paths {
		for method, found := range item.Operations() {
			if found.OperationID == name {
				return path, method, found
			}
		}
	}
	must(fmt.Errorf("there is no operation %s", name))
	return
}

// request is the request of the example of this name.
func request(base, path, method, name string, found *openapi3.Operation) *http.Request {
	for _, parameter := range found.Parameters {
		value := fmt.Sprint(parameter.Value.Examples[name].Value.Value)
		path = strings.ReplaceAll(path, "{"+parameter.Value.Name+"}", value)
	}
	media, body := "", ""
	if found.RequestBody != nil {
		for kind, content := range found.RequestBody.Value.Content {
			media = kind
			switch value := content.Examples[name].Value.Value.(type) {
			case string:
				body = value
			case map[string]interface{}:
				form := url.Values{}
				for key, one := range value {
					form.Set(key, fmt.Sprint(one))
				}
				body = form.Encode()
			}
		}
	}
	made, err := http.NewRequest(method, base+path, strings.NewReader(body))
	must(err)
	if media != "" {
		made.Header.Set("Content-Type", media)
	}
	return made
}

// answer is the status and the body of the example of this name.
func answer(name string, found *openapi3.Operation) (string, string) {
	for status, response := range found.Responses {
		for _, content := range response.Value.Content {
			if example := content.Examples[name]; example != nil {
				return status, example.Value.Value.(string)
			}
		}
	}
	return "no answer", ""
}

// differs is what is wrong with the exchange of an example, or nothing.
func differs(doc *openapi3.T, base, step string) error {
	name := strings.Fields(step)
	path, method, found := operation(doc, name[0])
	asked := request(base, path, method, name[1], found)
	router, err := gorillamux.NewRouter(doc)
	must(err)
	route, values, err := router.FindRoute(asked)
	if err != nil {
		return err
	}
	ctx := context.Background()
	input := &openapi3filter.RequestValidationInput{Request: asked, PathParams: values, Route: route}
	status, wanted := answer(name[1], found)
	if err := openapi3filter.ValidateRequest(ctx, input); err != nil && status != "400" {
		return err
	}
	response, err := (&http.Client{Timeout: 20 * time.Second}).Do(asked)
	if err != nil {
		return err
	}
	defer response.Body.Close()
	body, err := io.ReadAll(response.Body)
	if err != nil {
		return err
	}
	if status != fmt.Sprint(response.StatusCode) || wanted != string(body) {
		return fmt.Errorf("wanted %s %q, and got %d %q", status, wanted, response.StatusCode, body)
	}
	return openapi3filter.ValidateResponse(ctx, &openapi3filter.ResponseValidationInput{
		RequestValidationInput: input, Status: response.StatusCode, Header: response.Header,
		Body: io.NopCloser(bytes.NewReader(body)), Options: &openapi3filter.Options{IncludeResponseStatus: true}})
}

func main() {
	given := []string{"crates/hotel_desk/out/hotel_desk", "docs/openapi.yaml"}
	copy(given, os.Args[1:])
	openapi3filter.RegisterBodyDecoder("text/csv", text)
	openapi3filter.RegisterBodyDecoder("text/plain", text)
	doc, err := openapi3.NewLoader().LoadFromFile(given[1])
	must(err)
	must(doc.Validate(context.Background()))
	var order []string
	must(json.Unmarshal(doc.Extensions["x-order"].(json.RawMessage), &order))
	server, base := serve(given[0])
	doc.Servers = openapi3.Servers{{URL: base}}
	wrong := 0
	for _, step := range order {
		if err := differs(doc, base, step); err != nil {
			fmt.Printf("%s: %v\n", step, err)
			wrong++
		}
	}
	server.Process.Kill()
	if wrong > 0 {
		fmt.Printf("%d not as described\n", wrong)
		os.Exit(1)
	}
	fmt.Printf("%d answers as described\n", len(order))
}
