// Compares the trees that test_yaml prints with what sigs.k8s.io/yaml, the API server's library, reads in the same documents.
//
//	go-yaml make COUNT SEED > DOCUMENTS      mutated configurations, in hex, a line each
//	go-yaml compare DOCUMENTS ANSWERS        ANSWERS is what test_yaml prints for DOCUMENTS
//	go-yaml texts TEXTS                      whether the library reads each line as Go's JSON does: the settings of plans
//
// A document that both read means the same, but for these forms, which are counted apart:
//   - a key with a blank before its colon, which the library drops;
//   - a tab in a plain scalar: the library drops it at an end, and takes it for a blank before a `#` or behind a `:`;
//   - a plain scalar that the library takes for a number, a truth value or null, and which is a text here. A member that must
//     be a text is refused by the server then.
package main

import (
	"bufio"
	"encoding/hex"
	"encoding/json"
	"fmt"
	"math/rand"
	"os"
	"reflect"
	"strconv"
	"strings"

	"sigs.k8s.io/yaml"
)

var whole = []string{
	`apiVersion: apiserver.config.k8s.io/v1
kind: EncryptionConfiguration
resources:
- resources:
  - secrets
  - "configmaps"
  providers:
  - aescbc:
      keys:
      - name: key1
        secret: c2VjcmV0IGlzIHNlY3VyZSwgaXMgaXQ/IQ==
  - identity: {}
`,
	`---
# an example
apiVersion: apiserver.config.k8s.io/v1
kind: 'EncryptionConfiguration'
resources:
  - resources: [secrets, 'events.events.k8s.io', "*.apps"]
    providers:
      - kms: # a plugin
          apiVersion: v2
          name: vault
          endpoint: unix:///var/run/kms.sock
          timeout: 3s
          cachesize: 1000
      - aesgcm:
          keys:
            - {}
            - name: k
              secret: "AAAAAAAAAAAAAAAAAAAAAA=="
      - identity: {}
  - resources:
      - '*.*'
    providers: # the rest
      - identity:
`,
	"kind: a\nother:\n- b: [c, d]\n  e: null\n-\n- - f\n  - ~\n",
}

// pieces are put into a document, or in place of a part of it.
var pieces = []string{
	"\r", "\r\n", "\n", "\u0085", "\u2028", "\u2029", "\ufeff", "\u00a0", "\u0001", "\u007f", "\u0080", "\u009f", "\ue000", "\ufffd",
	"\uffff", "\U00010000", "\U0001f600", "\u00e9", "\t", " ", "  ", "#", " #", " # x", "# x\r", ":", ": ", " :", "-", "- ", "---", "--- ",
	"---\n", "\n---\n", "\n--- a\n", "\n---\t", "...", "... ", "\n...\n", "\n... a\n", "\n...\t\n", "<<", "<<: ", "<< : ", "\n<<: {}\n",
	"<<:\n", "'", "''", "\"", "\\", "\\n", "\\/", "\\t", "[", "]", "{", "}", "{}", "[]", ",", "&a ", "*a", "!t ", "|", ">", "?", "? ",
	"%", "@", "`", "=", "null", "~", "Null", "true", "yes", "No", "1", "0x1F", "1_000", "1e3", ".5", "-2", "2001-01-01", "a", "name",
	"providers:", "- identity: {}", "\n- identity: {}", "\n  ", "\n    ", "\n\n", "a: b", "\na: b\n", "\n  a: b\n", "- - ", "-\t", ":\t",
}

func mutated(chance *rand.Rand) string {
	text := whole[chance.Intn(len(whole))]
	for left := 1 + chance.Intn(3); left > 0; left-- {
		if chance.Intn(3) == 0 {
			text = withLines(chance, text)
		} else {
			text = withPiece(chance, text)
		}
	}
	return text
}

// withPiece has a piece put in at a place, perhaps over some bytes.
func withPiece(chance *rand.Rand, text string) string {
	signs := []rune(text)
	from := chance.Intn(len(signs) + 1)
	to := from
	if chance.Intn(3) == 0 {
		to = min(len(signs), from+chance.Intn(4))
	}
	piece := pieces[chance.Intn(len(pieces))]
	if chance.Intn(10) == 0 {
		piece = ""
	}
	return string(signs[:from]) + piece + string(signs[to:])
}

// withLines has a line dropped, doubled, moved, or further to the right or left, or with another end.
func withLines(chance *rand.Rand, text string) string {
	lines := strings.Split(text, "\n")
	at := chance.Intn(len(lines))
	switch chance.Intn(6) {
	case 0:
		lines = append(lines[:at], lines[at+1:]...)
	case 1:
		lines = append(lines[:at+1], lines[at:]...)
	case 2:
		other := chance.Intn(len(lines))
		lines[at], lines[other] = lines[other], lines[at]
	case 3:
		lines[at] = strings.Repeat(" ", 1+chance.Intn(3)) + lines[at]
	case 4:
		lines[at] = strings.TrimPrefix(lines[at], strings.Repeat(" ", 1+chance.Intn(3)))
	default:
		lines[at] += []string{"\r", " ", "\t", " # x", " # x\r- a: b", "#", ":", " \u2028b: c", "\u0085b: c"}[chance.Intn(9)]
	}
	return strings.Join(lines, "\n")
}

func min(a, b int) int {
	if a < b {
		return a
	}
	return b
}

// A tree is nil, a string, a []tree or a []member.
type tree interface{}

type member struct {
	key   string
	value tree
}

// parsed reads what test_yaml prints.
func parsed(text string) (tree, string) {
	switch {
	case strings.HasPrefix(text, "null"):
		return nil, text[4:]
	case text[0] == '"':
		return word(text)
	case text[0] == '[':
		items := []tree{}
		for text = text[1:]; text[0] != ']'; text = strings.TrimPrefix(text, ",") {
			var item tree
			item, text = parsed(text)
			items = append(items, item)
		}
		return items, text[1:]
	default:
		members := []member{}
		for text = text[1:]; text[0] != '}'; text = strings.TrimPrefix(text, ",") {
			key, rest := word(text)
			value, rest := parsed(rest[1:])
			members, text = append(members, member{key, value}), rest
		}
		return members, text[1:]
	}
}

func word(text string) (string, string) {
	end := 1 + strings.IndexByte(text[1:], '"')
	bytes, err := hex.DecodeString(text[1:end])
	check(err)
	return string(bytes), text[end+1:]
}

// The forms that a comparison came upon.
type forms struct{ key, tab, typed bool }

func (f *forms) name() string {
	names := []string{}
	for _, form := range []struct {
		is   bool
		name string
	}{{f.key, "blank before a colon"}, {f.tab, "tab in a plain scalar"}, {f.typed, "number, truth value or null"}} {
		if form.is {
			names = append(names, form.name)
		}
	}
	return strings.Join(names, ", ")
}

// means says whether what the library read is what was read here.
func (f *forms) means(ours tree, theirs interface{}) bool {
	switch ours := ours.(type) {
	case nil:
		return theirs == nil
	case string:
		return f.scalar(ours, theirs)
	case []tree:
		list, is := theirs.([]interface{})
		if !is || len(list) != len(ours) {
			return false
		}
		for place, item := range ours {
			if !f.means(item, list[place]) {
				return false
			}
		}
		return true
	default:
		return f.mapping(ours.([]member), theirs)
	}
}

func (f *forms) mapping(ours []member, theirs interface{}) bool {
	object, is := theirs.(map[string]interface{})
	if !is {
		return false
	}
	last := map[string]tree{}
	for _, member := range ours {
		last[f.keyIn(member.key, object)] = member.value
	}
	if len(last) != len(object) {
		return false
	}
	for key, value := range last {
		found, is := object[key]
		if !is || !f.means(value, found) {
			return false
		}
	}
	return true
}

// keyIn is the key by which the library has it.
func (f *forms) keyIn(key string, object map[string]interface{}) string {
	if _, is := object[key]; is {
		return key
	}
	if less := strings.TrimRight(key, " \t"); less != key {
		f.key = true
		key = less
	}
	if _, is := object[key]; !is {
		f.typed = true
		if as, err := read([]byte("{" + key + ": 0}")); err == nil {
			for name := range as.(map[string]interface{}) {
				key = name
			}
		}
	}
	return key
}

func (f *forms) scalar(ours string, theirs interface{}) bool {
	if ours == theirs {
		return true
	}
	_, isText := theirs.(string)
	if strings.Contains(ours, "\t") {
		f.tab = true
	} else if isText {
		return false
	} else {
		f.typed = true
	}
	// (a dropped tab may leave what begins a document, as `---`, which alone reads as no text)
	less := strings.Trim(ours, " \t")
	if f.tab && less == theirs {
		return true
	}
	value, err := read([]byte(strings.TrimLeft(ours, " \t")))
	return err == nil && reflect.DeepEqual(value, theirs)
}

func read(document []byte) (value interface{}, err error) {
	defer func() {
		if fault := recover(); fault != nil {
			err = fmt.Errorf("%v", fault)
		}
	}()
	text, err := yaml.YAMLToJSON(document)
	if err != nil {
		return nil, err
	}
	return value, json.Unmarshal(text, &value)
}

func lines(path string) []string {
	file, err := os.Open(path)
	check(err)
	defer file.Close()
	found := []string{}
	scanner := bufio.NewScanner(file)
	for scanner.Buffer(nil, 1<<24); scanner.Scan(); {
		found = append(found, scanner.Text())
	}
	check(scanner.Err())
	return found
}

func compare(documents, answers []string) {
	if len(documents) != len(answers) {
		check(fmt.Errorf("%d documents and %d answers", len(documents), len(answers)))
	}
	same, ours, wrong, named := 0, 0, 0, map[string]int{}
	for place, line := range documents {
		document, err := hex.DecodeString(line)
		check(err)
		if !strings.Contains(`n"[{`, answers[place][:1]) {
			continue
		}
		value, err := read(document)
		if err != nil {
			ours++
			continue
		}
		tree, _ := parsed(answers[place])
		met := forms{}
		if !met.means(tree, value) {
			fmt.Printf("not so: %s\n%q\nhere it is %s\nthe library reads %v\n", line, document, answers[place], value)
			wrong++
		} else if name := met.name(); name != "" {
			named[name]++
		} else {
			same++
		}
	}
	fmt.Printf("of %d documents the library reads %d as they are read here", len(documents), same)
	for name, count := range named {
		fmt.Printf(", %d but for a form (%s)", count, name)
	}
	fmt.Printf("; %d that are read here it refuses\n", ours)
	if wrong > 0 || same == 0 {
		os.Exit(1)
	}
}

func texts(documents []string) {
	wrong := 0
	for _, line := range documents {
		var wanted interface{}
		check(json.Unmarshal([]byte(line), &wanted))
		value, err := read([]byte(line))
		if err != nil || !reflect.DeepEqual(value, wanted) {
			fmt.Printf("not so: %s\nthe library reads %v (%v)\n", line, value, err)
			wrong++
		}
	}
	fmt.Printf("of %d settings of plans the library reads %d as they are\n", len(documents), len(documents)-wrong)
	if wrong > 0 || len(documents) == 0 {
		os.Exit(1)
	}
}

func check(err error) {
	if err != nil {
		fmt.Fprintln(os.Stderr, err)
		os.Exit(1)
	}
}

func main() {
	if len(os.Args) == 4 && os.Args[1] == "make" {
		count, err := strconv.Atoi(os.Args[2])
		check(err)
		seed, err := strconv.ParseInt(os.Args[3], 10, 64)
		check(err)
		chance := rand.New(rand.NewSource(seed))
		out := bufio.NewWriter(os.Stdout)
		defer out.Flush()
		for ; count > 0; count-- {
			// an empty document is none
			fmt.Fprintln(out, hex.EncodeToString([]byte(mutated(chance)+"\n")))
		}
		return
	}
	if len(os.Args) == 3 && os.Args[1] == "texts" {
		texts(lines(os.Args[2]))
		return
	}
	if len(os.Args) != 4 || os.Args[1] != "compare" {
		check(fmt.Errorf("words: make COUNT SEED, compare DOCUMENTS ANSWERS, or texts TEXTS"))
	}
	compare(lines(os.Args[2]), lines(os.Args[3]))
}
