// Makes the usual calls of the Go client github.com/lensesio/schema-registry, and compares each response. The client
// sends chunked bodies.
//
//	main URL PREFIX          URL of a proxy in front of avroreg; the proxy sends bodies with a length
//	main URL PREFIX alone    URL of avroreg itself, which rejects chunked bodies. If it closes the connection before
//	                         the client has sent the whole body, the client reports a connection error, no status
package main

import (
	"fmt"
	"os"
	"reflect"
	"strings"

	registry "github.com/lensesio/schema-registry"
)

const (
	first  = `{"fields":[{"name":"id","type":"long"}],"name":"Order","type":"record"}`
	second = `{"fields":[{"name":"id","type":"long"},{"default":"","name":"note","type":"string"}],"name":"Order","type":"record"}`
	third  = `{"fields":[{"name":"id","type":"long"},{"name":"total","type":"double"}],"name":"Order","type":"record"}`
)

// checkEqual ends the program with status 1 if the values differ.
func checkEqual(what string, wanted, found interface{}) {
	if !reflect.DeepEqual(wanted, found) {
		fmt.Fprintf(os.Stderr, "%s: wanted %v, found %v\n", what, wanted, found)
		os.Exit(1)
	}
}

// checkRejected ends the program with status 1 unless the call was rejected with this error code.
func checkRejected(what string, code int, err error) {
	if err == nil || !strings.HasSuffix(err.Error(), fmt.Sprintf("(%d)", code)) {
		fmt.Fprintf(os.Stderr, "%s: wanted code %d, found %v\n", what, code, err)
		os.Exit(1)
	}
}

func main() {
	client, err := registry.NewClient(os.Args[1])
	checkEqual("error of NewClient", nil, err)
	subject := os.Args[2] + "go-value"
	_, err = client.Versions(subject)
	checkRejected("no versions", 40401, err)
	if len(os.Args) > 3 {
		_, err = client.RegisterNewSchema(subject, first)
		checkEqual("a chunked body is accepted", false, err == nil)
		_, err = client.Versions(subject)
		checkRejected("no versions after the rejection", 40401, err)
		fmt.Println("lensesio/schema-registry: avroreg rejected the chunked body, and registered nothing")
		return
	}
	one, err := client.RegisterNewSchema(subject, first)
	checkEqual("error of RegisterNewSchema", nil, err)
	two, err := client.RegisterNewSchema(subject, second)
	checkEqual("error of RegisterNewSchema", nil, err)
	_, err = client.RegisterNewSchema(subject, third)
	checkRejected("an incompatible schema", 409, err)
	versions, err := client.Versions(subject)
	checkEqual("versions", []int{1, 2}, versions)
	isRegistered, found, err := client.IsRegistered(subject, first)
	checkEqual("first is registered", true, isRegistered)
	checkEqual("version of first", 1, found.Version)
	isRegistered, _, err = client.IsRegistered(subject, third)
	checkEqual("third is registered", false, isRegistered)
	text, err := client.GetSchemaById(one)
	checkEqual("schema by id", first, text)
	latest, err := client.GetLatestSchema(subject)
	checkEqual("id of the latest version", two, latest.Id)
	numbered, err := client.GetSchemaBySubject(subject, 2)
	checkEqual("schema of version 2", second, numbered.Schema)
	fmt.Println("lensesio/schema-registry: got the right responses")
}
