package main

import (
	"context"
	"encoding/json"
	"os"
	"strconv"
	"sync"
	"time"

	"go.opentelemetry.io/otel/attribute"
	"go.opentelemetry.io/otel/codes"
	sdk "go.opentelemetry.io/otel/sdk/trace"
	"go.opentelemetry.io/otel/trace"
)

type object = map[string]interface{}

// writer is an exporter that writes each span as a line of OTLP/JSON, one ExportTraceServiceRequest.
type writer struct {
	mutex sync.Mutex
	file  *os.File
}

func (w *writer) ExportSpans(_ context.Context, spans []sdk.ReadOnlySpan) error {
	w.mutex.Lock()
	defer w.mutex.Unlock()
	for _, span := range spans {
		request := object{"resourceSpans": []object{{
			"resource": object{"attributes": attributes(span.Resource().Attributes())},
			"scopeSpans": []object{{"scope": object{"name": span.InstrumentationLibrary().Name},
				"spans": []object{spelled(span)}}}}}}
		if err := json.NewEncoder(w.file).Encode(request); err != nil {
			return err
		}
	}
	return nil
}

func (w *writer) Shutdown(context.Context) error { return nil }

// spelled is a span as OTLP/JSON has it. The SDK numbers kinds as OTLP does; its error is 1, and OTLP's 2.
func spelled(span sdk.ReadOnlySpan) object {
	told := ids(span.SpanContext())
	told["name"], told["kind"] = span.Name(), int(span.SpanKind())
	told["startTimeUnixNano"], told["endTimeUnixNano"] = nano(span.StartTime()), nano(span.EndTime())
	told["attributes"] = attributes(span.Attributes())
	if span.Parent().SpanID().IsValid() {
		told["parentSpanId"] = span.Parent().SpanID().String()
	}
	if span.Status().Code == codes.Error {
		told["status"] = object{"code": 2, "message": span.Status().Description}
	}
	events := []object{}
	for _, event := range span.Events() {
		events = append(events, object{"timeUnixNano": nano(event.Time), "name": event.Name,
			"attributes": attributes(event.Attributes)})
	}
	told["events"] = events
	links := []object{}
	for _, link := range span.Links() {
		links = append(links, ids(link.SpanContext))
	}
	told["links"] = links
	return told
}

func ids(of trace.SpanContext) object {
	return object{"traceId": of.TraceID().String(), "spanId": of.SpanID().String()}
}

func nano(at time.Time) string { return strconv.FormatInt(at.UnixNano(), 10) }

func attributes(from []attribute.KeyValue) []object {
	to := []object{}
	for _, one := range from {
		kind := "stringValue"
		if one.Value.Type() == attribute.INT64 {
			kind = "intValue"
		}
		to = append(to, object{"key": string(one.Key), "value": object{kind: one.Value.Emit()}})
	}
	return to
}
