// A lease that runs out, in services that are traced by OpenTelemetry's SDK for Go.
//
//	lease ROLE FOLDER KEEPER STORE [PAUSE]
//
// ROLE is keeper or store, which serve at the addresses KEEPER and STORE until they are terminated, or the name of one
// who makes three backups, and in the first pauses for so many milliseconds while it holds the lease. Each process
// writes its spans to FOLDER/ROLE.json, as lines of OTLP/JSON.
package main

import (
	"context"
	"fmt"
	"io"
	"net/http"
	"net/url"
	"os"
	"os/signal"
	"path/filepath"
	"strconv"
	"sync"
	"syscall"
	"time"

	"go.opentelemetry.io/otel/attribute"
	"go.opentelemetry.io/otel/codes"
	"go.opentelemetry.io/otel/propagation"
	"go.opentelemetry.io/otel/sdk/resource"
	sdk "go.opentelemetry.io/otel/sdk/trace"
	"go.opentelemetry.io/otel/trace"
)

// The keeper lends the lease for so long.
const lent = time.Second

var carrier = propagation.TraceContext{}

type service struct {
	name   string
	tracer trace.Tracer
}

// call asks another service, as a client, and gives its answer.
func (s service) call(ctx context.Context, name, address, path string) string {
	ctx, span := s.tracer.Start(ctx, name, trace.WithSpanKind(trace.SpanKindClient))
	defer span.End()
	to := "http://" + address + path + "?who=" + url.QueryEscape(s.name)
	request, err := http.NewRequestWithContext(ctx, "GET", to, nil)
	if err == nil {
		carrier.Inject(ctx, propagation.HeaderCarrier(request.Header))
		var reply *http.Response
		if reply, err = http.DefaultClient.Do(request); err == nil {
			defer reply.Body.Close()
			var word []byte
			if word, err = io.ReadAll(reply.Body); err == nil {
				return string(word)
			}
		}
	}
	span.SetStatus(codes.Error, err.Error())
	return ""
}

// answer serves one path; each request has a span below that of the client.
func (s service) answer(path, name string, what func(who string, span trace.Span) string) {
	http.HandleFunc(path, func(writer http.ResponseWriter, request *http.Request) {
		ctx := carrier.Extract(request.Context(), propagation.HeaderCarrier(request.Header))
		_, span := s.tracer.Start(ctx, name, trace.WithSpanKind(trace.SpanKindServer))
		word := what(request.URL.Query().Get("who"), span)
		span.End()
		fmt.Fprint(writer, word)
	})
}

func (s service) keep() {
	var mutex sync.Mutex
	var holder string
	var until time.Time
	s.answer("/ask", "lends the lease", func(who string, span trace.Span) string {
		mutex.Lock()
		defer mutex.Unlock()
		if holder != "" && holder != who && time.Now().Before(until) {
			span.AddEvent("lets " + who + " wait")
			return "wait"
		}
		holder, until = who, time.Now().Add(lent)
		span.AddEvent("lends it to " + who)
		return "yes"
	})
	s.answer("/give", "takes the lease back", func(who string, span trace.Span) string {
		mutex.Lock()
		defer mutex.Unlock()
		if holder == who {
			holder = ""
		}
		return "ok"
	})
}

// back makes one backup: it asks for the lease, writes to the store, and gives the lease back.
func (s service) back(turn int, keeper, store string, pause time.Duration) {
	ctx, whole := s.tracer.Start(context.Background(), "makes a backup",
		trace.WithAttributes(attribute.Int("turn", turn)))
	defer whole.End()
	for s.call(ctx, "asks for the lease", keeper, "/ask") != "yes" {
		time.Sleep(200 * time.Millisecond)
	}
	holding, held := s.tracer.Start(ctx, "holds the lease")
	time.Sleep(pause)
	s.call(holding, "writes", store, "/write")
	held.End()
	s.call(ctx, "gives the lease back", keeper, "/give")
}

func main() {
	role, folder, keeper, store := os.Args[1], os.Args[2], os.Args[3], os.Args[4]
	file, err := os.Create(filepath.Join(folder, role+".json"))
	if err != nil {
		panic(err)
	}
	defer file.Close()
	provider := sdk.NewTracerProvider(sdk.WithSyncer(&writer{file: file}), sdk.WithResource(resource.NewSchemaless(
		attribute.String("service.name", role), attribute.String("service.instance.id", role+"-1"))))
	s := service{role, provider.Tracer("lease")}
	switch role {
	case "keeper":
		s.keep()
		serve(keeper)
	case "store":
		s.answer("/write", "stores", func(string, trace.Span) string { return "ok" })
		serve(store)
	default:
		pause, _ := strconv.Atoi(os.Args[5])
		for turn := 0; turn < 3; turn++ {
			slow := time.Duration(0)
			if turn == 0 {
				slow = time.Duration(pause) * time.Millisecond
			}
			s.back(turn, keeper, store, slow)
			time.Sleep(100 * time.Millisecond)
		}
	}
}

// serve answers until the process is terminated.
func serve(address string) {
	stop := make(chan os.Signal, 1)
	signal.Notify(stop, syscall.SIGTERM)
	server := &http.Server{Addr: address}
	go func() {
		<-stop
		server.Shutdown(context.Background())
	}()
	if err := server.ListenAndServe(); err != http.ErrServerClosed {
		panic(err)
	}
}
