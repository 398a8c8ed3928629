// A till that asks a vault for tokens through its front, as till.py does.
//
//	go run till.go --certificate PEM --key PEM --authority PEM [--tries N] URL MERCHANT
//
// It reads card numbers from standard input, one a line, and prints a token and its end for each, or `refused`
// and the vault's number, or `refused front` and the front's. Where no answer came, or one that says to come
// again, the same request is sent again with the same number. The exit status is 1 where a request was refused
// or unanswered.
package main

import (
	"bufio"
	"bytes"
	"crypto/rand"
	"crypto/tls"
	"crypto/x509"
	"encoding/json"
	"errors"
	"flag"
	"fmt"
	"io"
	"math/big"
	"net/http"
	"net/url"
	"os"
	"strconv"
	"strings"
	"time"
)

const (
	patience     = 30 * time.Second
	unknown      = 7 // a merchant that isn't known, which behind a front may be a route that is on its way
	unknownTries = 6
)

// till is where requests go, by which certificate, and how often each is sent at most.
type till struct {
	target string
	client *http.Client
	tries  int
}

// answer is what an answer may say; what isn't there is nil or empty.
type answer struct {
	Token   string `json:"token"`
	Expires int64  `json:"expires"`
	Refused *int   `json:"refused"`
	Front   *int   `json:"front"`
}

// lost is why there is no answer, or one that says to come again, and after which pause at least.
type lost struct {
	why   string
	after time.Duration
}

func (it lost) Error() string { return it.why }

func end(line string) {
	fmt.Fprintln(os.Stderr, line)
	os.Exit(1)
}

// drawn is a whole number from 1 to most.
func drawn(most *big.Int) *big.Int {
	found, err := rand.Int(rand.Reader, most)
	if err != nil {
		end("there is no randomness")
	}
	return found.Add(found, big.NewInt(1))
}

// reference is sixteen letters by which the front's log has a request; digits might be taken for a card number.
func reference() string {
	letters := make([]byte, 16)
	for place := range letters {
		letters[place] = 'a' + byte(drawn(big.NewInt(16)).Int64()-1)
	}
	return "till-" + string(letters)
}

// sent is the status, the pause that is asked for and the body of the answer to one request.
func (it till) sent(request, mark, number string) (int, time.Duration, []byte, error) {
	body, _ := json.Marshal(map[string]string{"number": number, "use": "single"})
	message, err := http.NewRequest(http.MethodPost, it.target, bytes.NewReader(body))
	if err != nil {
		return 0, 0, nil, err
	}
	message.Close = true
	message.Header.Set("X-Vault-Request", request)
	message.Header.Set("X-Vault-Reference", mark)
	found, err := it.client.Do(message)
	if err != nil {
		return 0, 0, nil, err
	}
	defer found.Body.Close()
	text, err := io.ReadAll(found.Body)
	seconds, _ := strconv.Atoi(found.Header.Get("Retry-After"))
	return found.StatusCode, time.Duration(seconds) * time.Second, text, err
}

// judged is what an answer says to print, and whether it is a refusal; or why to ask again.
func judged(status int, after time.Duration, text []byte) (string, bool, error) {
	var told answer
	// an answer that isn't JSON says nothing but its status
	_ = json.Unmarshal(text, &told)
	switch {
	case status == 200 && told.Token != "":
		return fmt.Sprintf("%s %d", told.Token, told.Expires), false, nil
	case told.Refused != nil:
		return fmt.Sprintf("refused %d", *told.Refused), true, nil
	case status >= 400 && status < 500 && status != 408 && status != 429:
		if told.Front != nil {
			status = *told.Front
		}
		return fmt.Sprintf("refused front %d", status), true, nil
	}
	return "", false, lost{fmt.Sprintf("status %d", status), after}
}

// once is one try of a request.
func (it till) once(request, mark, number string) (string, bool, error) {
	status, after, text, err := it.sent(request, mark, number)
	var untrusted x509.UnknownAuthorityError
	var unfit x509.CertificateInvalidError
	var misnamed x509.HostnameError
	if errors.As(err, &untrusted) || errors.As(err, &unfit) || errors.As(err, &misnamed) {
		end("the front's certificate isn't trusted: " + err.Error())
	}
	if err != nil {
		return "", false, lost{why: "no whole answer"}
	}
	return judged(status, after, text)
}

// token is what is told of a card number, by one request that is repeated until it has an answer.
func (it till) token(number string) (string, bool) {
	request := drawn(new(big.Int).SetInt64(1<<63 - 1)).String()
	mark, unknowns, after := reference(), 0, time.Duration(0)
	for turn := 0; turn < it.tries; turn++ {
		if turn > 0 {
			pause := 50 * time.Millisecond << turn
			if pause > 10*time.Second {
				pause = 10 * time.Second
			}
			if pause < after {
				pause = after
			}
			time.Sleep(pause)
		}
		line, refused, err := it.once(request, mark, number)
		if line == fmt.Sprintf("refused %d", unknown) && unknowns < unknownTries-1 && turn < it.tries-1 {
			unknowns++
			err = lost{why: line}
		}
		if err == nil {
			return line, refused
		}
		after = 0
		var why lost
		if errors.As(err, &why) {
			after = why.after
		}
		fmt.Fprintf(os.Stderr, "request %s has no answer: %v\n", request, err)
	}
	end(fmt.Sprintf("request %s has no answer yet: send it again with this number", request))
	return "", false
}

// identity is by which certificate the till asks, and by which it knows the front.
func identity(certificate, key, authority string) *tls.Config {
	roots, text := x509.NewCertPool(), []byte(nil)
	text, err := os.ReadFile(authority)
	if err != nil || !roots.AppendCertsFromPEM(text) {
		end("the certificates can't be used: " + authority)
	}
	config := &tls.Config{RootCAs: roots, MinVersion: tls.VersionTLS12}
	if certificate != "" {
		pair, err := tls.LoadX509KeyPair(certificate, key)
		if err != nil {
			end("the certificates can't be used: " + certificate)
		}
		config.Certificates = []tls.Certificate{pair}
	}
	return config
}

func main() {
	certificate := flag.String("certificate", "", "the till's certificate")
	key := flag.String("key", "", "its key")
	authority := flag.String("authority", "", "by which the front is known")
	tries := flag.Int("tries", 10, "how often a request is sent at most")
	flag.Parse()
	if flag.NArg() != 2 {
		end("till.go --certificate PEM --key PEM --authority PEM [--tries N] URL MERCHANT")
	}
	transport := &http.Transport{TLSClientConfig: identity(*certificate, *key, *authority)}
	it := till{
		target: flag.Arg(0) + "/v1/merchants/" + url.PathEscape(flag.Arg(1)) + "/tokens",
		client: &http.Client{Transport: transport, Timeout: patience},
		tries:  *tries,
	}
	many, lines := 0, bufio.NewScanner(os.Stdin)
	for lines.Scan() {
		line, refused := it.token(strings.TrimSpace(lines.Text()))
		if refused {
			many++
		}
		fmt.Println(line)
	}
	if many > 0 {
		end(fmt.Sprintf("requests that were refused: %d", many))
	}
}
