// The API server's own reading of configurations and of stored values, asked by lines of JSON, each answered by one line.
// It is built inside Kubernetes' own tree, in its folder cmd/; `building.py` beside it does so.
//
//	{"op":"load","name":N,"file":F}                            the configuration in F is kept as N
//	{"op":"seal","name":N,"resource":R,"path":P,"data":B64}    {"ok":true,"value":B64}
//	{"op":"open","name":N,"resource":R,"path":P,"value":B64}   {"ok":true,"data":B64,"stale":BOOL}
//
// What is refused is {"ok":false,"error":TEXT}. A resource that no entry names has the transformer that the API server's
// storage has then.
package main

import (
	"bufio"
	"encoding/json"
	"fmt"
	"os"

	"k8s.io/apimachinery/pkg/runtime/schema"
	"k8s.io/apiserver/pkg/server/options/encryptionconfig"
	"k8s.io/apiserver/pkg/storage/value"
)

type request struct {
	Op, Name, File, Resource, Path string
	Value, Data                    []byte
}

type reply struct {
	OK    bool   `json:"ok"`
	Error string `json:"error,omitempty"`
	Data  []byte `json:"data"`
	Value []byte `json:"value"`
	Stale bool   `json:"stale"`
}

type transformers map[schema.GroupResource]value.Transformer

var loaded = map[string]transformers{}

// answer is a request's reply; what panics in Kubernetes' code is refused, as its server would answer with an error.
func answer(it request) (given reply) {
	defer func() {
		if fault := recover(); fault != nil {
			given = reply{Error: fmt.Sprintf("panic: %v", fault)}
		}
	}()
	given, err := done(it)
	if err != nil {
		return reply{Error: err.Error()}
	}
	given.OK = true
	return given
}

func done(it request) (reply, error) {
	if it.Op == "load" {
		delete(loaded, it.Name)
		found, err := encryptionconfig.GetTransformerOverrides(it.File)
		if err == nil {
			loaded[it.Name] = found
		}
		return reply{}, err
	}
	all, is := loaded[it.Name]
	if !is {
		return reply{}, fmt.Errorf("nothing is loaded as %q", it.Name)
	}
	by, is := all[schema.ParseGroupResource(it.Resource)]
	if !is {
		by = value.IdentityTransformer
	}
	at := value.DefaultContext(it.Path)
	switch it.Op {
	case "open":
		data, stale, err := by.TransformFromStorage(it.Value, at)
		return reply{Data: data, Stale: stale}, err
	case "seal":
		sealed, err := by.TransformToStorage(it.Data, at)
		return reply{Value: sealed}, err
	}
	return reply{}, fmt.Errorf("op %q", it.Op)
}

func main() {
	in := bufio.NewReaderSize(os.Stdin, 1<<20)
	out := json.NewEncoder(os.Stdout)
	for {
		line, err := in.ReadBytes('\n')
		if err != nil {
			return
		}
		it := request{}
		given := reply{}
		if err := json.Unmarshal(line, &it); err != nil {
			given.Error = "request: " + err.Error()
		} else {
			given = answer(it)
		}
		if err := out.Encode(given); err != nil {
			os.Exit(1)
		}
	}
}
