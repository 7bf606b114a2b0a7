package agent

import (
	"encoding/json"
	"os"
	"sort"

	"fdbrec/service/internal/report"
)

// Health says what is wrong with this machine, or nothing.
func (a *Agent) Health() string {
	if a.bus.Linked() == 0 {
		return "no broker"
	}
	its := a.alive()
	tokens := []string{}
	for token := range its.Nodes {
		tokens = append(tokens, token)
	}
	sort.Strings(tokens)
	for _, token := range tokens {
		if each := its.Nodes[token]; each.State == "failed" {
			return token + " " + each.State + ": " + each.Why
		}
	}
	return ""
}

// Metrics are the figures of this machine.
func (a *Agent) Metrics() string {
	its, made := a.standing(), &report.Metrics{}
	made.Counts(its.Counts)
	made.Add("gauge", "epoch", its.Newest.Epoch)
	made.Add("gauge", "linked_seconds", a.bus.Linked().Seconds())
	made.Add("gauge", "journal_fsync_p99_seconds", its.Fsync/1000)
	made.Add("gauge", "free_bytes", its.Free)
	for token, each := range its.Nodes {
		made.Add("gauge", "node_up", truth(each.State == "up"), "node", token)
		made.Add("gauge", "node_lines_waiting", each.Lines, "node", token)
		made.Add("gauge", "node_oldest_line_seconds", float64(each.Waiting)/1000, "node", token)
		made.Add("gauge", "node_answer_p99_seconds", each.Slow/1000, "node", token)
		made.Add("gauge", "node_file_bytes", each.Bytes, "node", token)
		made.Add("counter", "node_errors_total", each.Errors, "node", token)
		made.Add("counter", "node_starts_total", each.Starts, "node", token)
		var stands where
		if json.Unmarshal(each.Last, &stands) != nil {
			continue
		}
		if log := stands.Log; log != nil {
			made.Add("gauge", "log_full", truth(each.Full), "node", token)
			made.Add("gauge", "log_durable", log.Durable, "node", token)
			made.Add("gauge", "log_known", log.Known, "node", token)
		}
		if storage := stands.Storage; storage != nil {
			made.Add("gauge", "storage_epoch", storage.Epoch, "node", token)
			made.Add("gauge", "storage_version", storage.Version, "node", token)
			made.Add("gauge", "storage_floor", storage.Floor, "node", token)
		}
	}
	return made.String()
}

func truth(is bool) int {
	if is {
		return 1
	}
	return 0
}

func (a *Agent) bytesOf(n *node) (size int64) {
	if !n.name.HasFiles() {
		return 0
	}
	for _, path := range a.files(n.name) {
		if info, err := os.Stat(path); err == nil {
			size += info.Size()
		}
	}
	return size
}
