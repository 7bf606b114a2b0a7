module fdbrec/service

go 1.19

require (
	github.com/nats-io/nats.go v1.22.1
	github.com/nats-io/nkeys v0.3.0
)
