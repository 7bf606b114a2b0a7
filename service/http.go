package main

import (
	"fmt"
	"net"
	"net/http"
	"time"
)

// serveHTTP serves /healthz and /metrics at an address, if there is one.
func serveHTTP(address string, health func() string, metrics func() string) error {
	if address == "" {
		return nil
	}
	listener, err := net.Listen("tcp", address)
	if err != nil {
		return err
	}
	its := http.NewServeMux()
	its.HandleFunc("/healthz", func(to http.ResponseWriter, _ *http.Request) {
		why := health()
		if why != "" {
			to.WriteHeader(http.StatusServiceUnavailable)
			fmt.Fprintln(to, why)
			return
		}
		fmt.Fprintln(to, "ok")
	})
	its.HandleFunc("/metrics", func(to http.ResponseWriter, _ *http.Request) {
		to.Header().Set("Content-Type", "text/plain; version=0.0.4")
		fmt.Fprint(to, metrics())
	})
	server := &http.Server{Handler: its, ReadHeaderTimeout: 5 * time.Second}
	go func() { _ = server.Serve(listener) }()
	return nil
}
