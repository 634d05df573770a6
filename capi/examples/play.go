// Plays a role over TCP, in the frames of `anb play`, so either may be on the other side:
//
//	play <rolefile> <values> listen|dial <port>
package main

// #include <anb.h>
import "C"

import (
	"crypto/rand"
	"encoding/binary"
	"fmt"
	"io"
	"net"
	"os"
	"time"
	"unsafe"
)

// status is that of a call that didn't do what it is for.
type status C.int32_t

func (s status) Error() string { return fmt.Sprintf("anb: status %d", int32(s)) }

// session is a role under way.
type session struct{ raw C.anb_session }

// at is the address of the bytes, or another one where there are none.
func at(bytes []byte) *C.uint8_t {
	if len(bytes) == 0 {
		bytes = make([]byte, 1)
	}
	return (*C.uint8_t)(unsafe.Pointer(&bytes[0]))
}

func size(bytes []byte) C.size_t { return C.size_t(len(bytes)) }

func open(role, values, seed []byte) (*session, error) {
	s := new(session)
	if got := C.anb_open(&s.raw, at(role), size(role), at(values), size(values), at(seed), size(seed)); got != C.ANB_DONE {
		return nil, status(got)
	}
	return s, nil
}

func (s *session) close() { C.anb_close(&s.raw) }

// next gives a message, or nil where an arrival is wanted, or io.EOF where the role is played.
func (s *session) next() ([]byte, error) {
	out := make([]byte, 4096)
	var written C.size_t
	var event, instruction C.uint32_t
	for {
		switch got := C.anb_next(&s.raw, at(out), size(out), &written, &event, &instruction); got {
		case C.ANB_MESSAGE:
			return out[:written], nil
		case C.ANB_WAITING:
			return nil, nil
		case C.ANB_DONE:
			return nil, io.EOF
		case C.ANB_SHORT:
			out = make([]byte, written)
		case C.ANB_STOPPED:
			fmt.Fprintf(os.Stderr, "stopped at event %d, instruction %d\n", event, instruction)
			return nil, status(got)
		default:
			return nil, status(got)
		}
	}
}

func (s *session) arrive(bytes []byte) error {
	if got := C.anb_arrive(&s.raw, at(bytes), size(bytes)); got != C.ANB_DONE {
		return status(got)
	}
	return nil
}

func connection(way, port string) (net.Conn, error) {
	if way == "listen" {
		listener, err := net.Listen("tcp", "127.0.0.1:"+port)
		if err != nil {
			return nil, err
		}
		defer listener.Close()
		return listener.Accept()
	}
	for tries := 0; ; tries++ {
		wire, err := net.Dial("tcp", "127.0.0.1:"+port)
		if err == nil || tries == 50 {
			return wire, err
		}
		time.Sleep(100 * time.Millisecond)
	}
}

func play(roleName, valuesName, way, port string) error {
	role, err := os.ReadFile(roleName)
	if err != nil {
		return err
	}
	values, err := os.ReadFile(valuesName)
	if err != nil {
		return err
	}
	seed := make([]byte, C.ANB_SEED_LEN)
	if _, err := rand.Read(seed); err != nil {
		return err
	}
	s, err := open(role, values, seed)
	if err != nil {
		return err
	}
	defer s.close()
	wire, err := connection(way, port)
	if err != nil {
		return err
	}
	defer wire.Close()
	for {
		message, err := s.next()
		if err == io.EOF {
			return nil
		} else if err != nil {
			return err
		}
		if message != nil {
			if _, err := wire.Write(append(binary.BigEndian.AppendUint32(nil, uint32(len(message))), message...)); err != nil {
				return err
			}
			continue
		}
		var head [4]byte
		if _, err := io.ReadFull(wire, head[:]); err != nil {
			return err
		}
		length := binary.BigEndian.Uint32(head[:])
		if length > C.ANB_ARRIVAL_MAX {
			return status(C.ANB_TOO_LARGE)
		}
		arrival := make([]byte, length)
		if _, err := io.ReadFull(wire, arrival); err != nil {
			return err
		}
		if err := s.arrive(arrival); err != nil {
			return err
		}
	}
}

func main() {
	if len(os.Args) != 5 {
		fmt.Fprintln(os.Stderr, "play <rolefile> <values> listen|dial <port>")
		os.Exit(1)
	}
	if err := play(os.Args[1], os.Args[2], os.Args[3], os.Args[4]); err != nil {
		fmt.Fprintln(os.Stderr, err)
		if got, is := err.(status); is {
			os.Exit(int(got))
		}
		os.Exit(14)
	}
}
