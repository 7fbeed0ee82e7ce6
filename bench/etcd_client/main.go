// Clients of etcd, which put a value under a key of their own, one after another: etcd_client ENDPOINTS CLIENTS COMMANDS.
// ENDPOINTS are addresses of its JSON gateway, divided by commas; a client asks one of them. What it prints is told in bench/measure.
package main

import (
	"bench/measure"
	"bytes"
	"encoding/base64"
	"fmt"
	"io"
	"net/http"
	"time"
)

func put(client *http.Client, endpoint string, body []byte) error {
	answer, err := client.Post(endpoint+"/v3/kv/put", "application/json", bytes.NewReader(body))
	if err != nil {
		return err
	}
	defer answer.Body.Close()
	if _, err := io.Copy(io.Discard, answer.Body); err != nil {
		return err
	}
	if answer.StatusCode != http.StatusOK {
		return fmt.Errorf("status %d", answer.StatusCode)
	}
	return nil
}

func write(endpoint string, number, commands int, took *measure.Took) error {
	client := &http.Client{Transport: &http.Transport{}, Timeout: time.Minute}
	key := base64.StdEncoding.EncodeToString([]byte(fmt.Sprintf("name-%d", number)))
	body := []byte(fmt.Sprintf(`{"key":"%s","value":"%s"}`, key, base64.StdEncoding.EncodeToString([]byte(measure.Value))))
	for seq := 1; seq <= commands; seq++ {
		if err := took.Time(func() error { return put(client, endpoint, body) }); err != nil {
			return err
		}
	}
	return nil
}

func main() {
	options := measure.Read("etcd_client ENDPOINTS CLIENTS COMMANDS", 0)
	measure.Run(options, func(endpoint string, number int, took *measure.Took) error {
		return write(endpoint, number, options.Commands, took)
	})
}
