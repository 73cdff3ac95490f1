// A hub server over net/http, encoding/json and gorilla/websocket, to measure sr serve beside. It has the methods Echo, Join, Post and Count of
// sr's demonstration hub and its keep-alive, JSON alone, and no resumption.
//
//	go_server PORT [single]     with single, each item of a stream in a message of its own; else 64 of them
package main

import (
	"bytes"
	"encoding/json"
	"fmt"
	"net"
	"net/http"
	"os"
	"sync"
	"sync/atomic"
	"time"

	"github.com/gorilla/websocket"
)

// How many items of a stream go in one message.
const turn = 64

// What ends a frame.
const separator = 0x1e

type inMessage struct {
	Type         int               `json:"type"`
	InvocationID *string           `json:"invocationId,omitempty"`
	Target       string            `json:"target"`
	Arguments    []json.RawMessage `json:"arguments"`
}
type completion struct {
	Type         int             `json:"type"`
	InvocationID string          `json:"invocationId"`
	Result       json.RawMessage `json:"result,omitempty"`
	Error        string          `json:"error,omitempty"`
}
type streamItem struct {
	Type         int    `json:"type"`
	InvocationID string `json:"invocationId"`
	Item         int    `json:"item"`
}
type invocation struct {
	Type      int           `json:"type"`
	Target    string        `json:"target"`
	Arguments []interface{} `json:"arguments"`
}
type shakeRequest struct {
	Protocol string `json:"protocol"`
	Version  int    `json:"version"`
}

type conn struct {
	ws      *websocket.Conn
	mu      sync.Mutex
	number  int64
	shaken  bool
	rooms   []string
	heard   int64
	said    int64
	cancels sync.Map
}

var (
	upgrader = websocket.Upgrader{CheckOrigin: func(*http.Request) bool { return true }}
	roomsMu  sync.Mutex
	rooms    = map[string]map[*conn]struct{}{}
	connsMu  sync.Mutex
	conns    = map[*conn]struct{}{}
	rows     [][3]string
	made     int64
	single   bool
)

func (c *conn) write(b []byte) error {
	c.mu.Lock()
	defer c.mu.Unlock()
	atomic.StoreInt64(&c.said, time.Now().UnixMilli())
	return c.ws.WriteMessage(websocket.TextMessage, b)
}

func (c *conn) say(v interface{}) error {
	b, _ := json.Marshal(v)
	return c.write(append(b, separator))
}

func (c *conn) run() {
	defer c.end()
	for {
		_, data, err := c.ws.ReadMessage()
		if err != nil {
			return
		}
		atomic.StoreInt64(&c.heard, time.Now().UnixMilli())
		for len(data) > 0 {
			at := bytes.IndexByte(data, separator)
			if at < 0 {
				return
			}
			if !c.shaken {
				var s shakeRequest
				if json.Unmarshal(data[:at], &s) != nil || s.Protocol != "json" {
					return
				}
				c.shaken = true
				c.write([]byte("{}\x1e"))
			} else if !c.take(data[:at]) {
				return
			}
			data = data[at+1:]
		}
	}
}

func (c *conn) take(frame []byte) bool {
	var m inMessage
	if json.Unmarshal(frame, &m) != nil {
		return false
	}
	switch m.Type {
	case 1:
		c.call(&m)
	case 4:
		go c.count(&m)
	case 5:
		c.cancels.Store(*m.InvocationID, true)
	case 7:
		return false
	}
	return true
}

func (c *conn) call(m *inMessage) {
	var result json.RawMessage
	e := ""
	switch m.Target {
	case "Echo":
		result = m.Arguments[0]
	case "Join":
		var room string
		json.Unmarshal(m.Arguments[0], &room)
		roomsMu.Lock()
		if rooms[room] == nil {
			rooms[room] = map[*conn]struct{}{}
		}
		rooms[room][c] = struct{}{}
		roomsMu.Unlock()
		c.rooms = append(c.rooms, room)
	case "Post":
		var room, text string
		json.Unmarshal(m.Arguments[0], &room)
		json.Unmarshal(m.Arguments[1], &text)
		number := fmt.Sprint(c.number)
		b, _ := json.Marshal(invocation{1, "Posted", []interface{}{room, number, text}})
		p, _ := websocket.NewPreparedMessage(websocket.TextMessage, append(b, separator))
		roomsMu.Lock()
		rows = append(rows, [3]string{room, number, text})
		now := time.Now().UnixMilli()
		for member := range rooms[room] {
			member.mu.Lock()
			atomic.StoreInt64(&member.said, now)
			member.ws.WritePreparedMessage(p)
			member.mu.Unlock()
		}
		roomsMu.Unlock()
	default:
		e = "Unknown method."
	}
	if m.InvocationID != nil {
		c.say(completion{3, *m.InvocationID, result, e})
	}
}

func (c *conn) count(m *inMessage) {
	var n int
	json.Unmarshal(m.Arguments[0], &n)
	id := *m.InvocationID
	if single {
		for i := 1; i <= n; i++ {
			if c.say(streamItem{2, id, i}) != nil {
				return
			}
			if _, gone := c.cancels.Load(id); gone {
				break
			}
		}
	} else {
		var buf bytes.Buffer
		for i := 1; i <= n; {
			buf.Reset()
			for end := i + turn; i <= n && i < end; i++ {
				b, _ := json.Marshal(streamItem{2, id, i})
				buf.Write(b)
				buf.WriteByte(separator)
			}
			if c.write(buf.Bytes()) != nil {
				return
			}
			if _, gone := c.cancels.Load(id); gone {
				break
			}
		}
	}
	c.say(completion{Type: 3, InvocationID: id})
}

func (c *conn) end() {
	c.ws.Close()
	roomsMu.Lock()
	for _, r := range c.rooms {
		delete(rooms[r], c)
	}
	roomsMu.Unlock()
	connsMu.Lock()
	delete(conns, c)
	connsMu.Unlock()
}

func main() {
	port := os.Args[1]
	single = len(os.Args) > 2 && os.Args[2] == "single"
	http.HandleFunc("/hub", func(w http.ResponseWriter, r *http.Request) {
		ws, err := upgrader.Upgrade(w, r, nil)
		if err != nil {
			return
		}
		now := time.Now().UnixMilli()
		c := &conn{ws: ws, number: atomic.AddInt64(&made, 1), heard: now, said: now}
		ws.SetReadLimit(1 << 20)
		connsMu.Lock()
		conns[c] = struct{}{}
		connsMu.Unlock()
		// In a goroutine of its own, so that the stack of the handler goes.
		go c.run()
	})
	go func() {
		for range time.Tick(time.Second) {
			now := time.Now().UnixMilli()
			connsMu.Lock()
			for c := range conns {
				if now-atomic.LoadInt64(&c.heard) > 30000 {
					c.ws.Close()
				} else if now-atomic.LoadInt64(&c.said) > 15000 {
					c.write([]byte("{\"type\":6}\x1e"))
				}
			}
			connsMu.Unlock()
		}
	}()
	l, err := net.Listen("tcp", "127.0.0.1:"+port)
	if err != nil {
		panic(err)
	}
	fmt.Println("serving " + port)
	http.Serve(l, nil)
}
