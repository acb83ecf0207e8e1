"""The interface as OpenAPI 3 tells it. tests/front compares it with what the running front does: each path, method and status."""

from __future__ import annotations

from typing import Any

Document = dict[str, Any]
RAW = "application/vnd.ncpdp"
PROBLEM = "application/problem+json"
REFUSED = {
    400: "BadRequest", 401: "NoToken", 403: "NotAllowed", 404: "NoSuchPharmacy, NoSuchClaim", 408: "Slow", 409: "KeyReused", 413: "TooLong",
    415: "MediaType", 422: "The message is refused, and nothing was entered: the name says why",
    503: "Down, Busy, JournalFull, WouldBeFull, FillOpen, FrontBusy, NotKept, NotReady, NoAudit, NoProgram, SettingsChanged", 504: "NoReply",
}  # fmt: skip


def _query(name: str, says: str, kind: str = "integer", **more: Any) -> Document:
    return {"name": name, "in": "query", "required": False, "description": says, "schema": {"type": kind, **more}}


def _json(says: str, schema: Document, headers: Document | None = None, **more: Any) -> Document:
    return {"description": says, "content": {"application/json": {"schema": schema}, **more}} | (
        {"headers": headers} if headers else {}
    )


def _refused(*statuses: int) -> Document:
    schema = {"$ref": "#/components/schemas/Problem"}
    return {str(it): {"description": REFUSED[it], "content": {PROBLEM: {"schema": schema}}} for it in statuses}


def _got(
    summary: str, says: str, schema: Document, *statuses: int, parameters: list[Document] | None = None, **more: Any
) -> Document:
    """An operation that reads."""
    name = "".join(word.capitalize() for word in summary.split())
    operation = {
        "operationId": name[0].lower() + name[1:],
        "summary": summary,
        "responses": {"200": _json(says, schema, **more)} | _refused(*statuses),
    }
    return operation | ({"parameters": parameters} if parameters else {})


PAGES = [_query("page", "from 1", minimum=1), _query("size", "of a page", minimum=1, maximum=1000)]
WAIT = _query("wait", "for how many seconds the answer is waited for", "number", minimum=0, maximum=60)
DAYS = [
    _query("from", "the first date of service", "string"),
    _query("to", "the last date of service", "string"),
    _query("payer", "by its number"),
]
STATE = _query("state", "of the payment", "string", enum=["standing", "reversed"])
FORMAT = _query("format", "csv, or what Accept asks for", "string", enum=["csv"])
OF_PHARMACY = _query("pharmacy", "of one pharmacy alone", "string")
STATES = ["open", "answered", "paid", "duplicate", "rejected", "reversed"]
FINDS = [
    _query("state", "of the claim", "string", enum=STATES), _query("number", "of the claim"), *DAYS,
    _query("prescription", "of a transaction", "string"), _query("cardholder", "the last four letters of the ID, or fewer", "string"),
    _query("amount", "in dollars, as 47.20: what was paid, or what was submitted", "string"),
]  # fmt: skip
TEXT, NUMBER, NULLABLE = {"type": "string"}, {"type": "integer"}, {"type": "string", "nullable": True}
MESSAGE = {
    "type": "object", "nullable": True, "description": "a message in printed bytes, and as `claimdecode --json` reads it",
    "properties": {
        "text": TEXT, "kind": TEXT, "bytes": NUMBER, "parts": {"type": "array", "items": {"type": "object"}},
        "findings": {"type": "array", "items": {"type": "object"}},
    },
}  # fmt: skip
CLAIM = {
    "type": "object", "required": ["pharmacy", "number", "state", "location"],
    "properties": {
        "pharmacy": TEXT, "number": NUMBER, "state": {"type": "string", "enum": ["open", "answered", "given up"]}, "key": NULLABLE, "location": TEXT,
        "entered": NULLABLE, "answered": NULLABLE, "request": MESSAGE, "answer": MESSAGE, "repeats": {"type": "integer", "nullable": True},
        "given_up": {"type": "object", "nullable": True, "properties": {"code": TEXT, "outcome": NULLABLE, "reversal": {"type": "integer", "nullable": True}}},
    },
}  # fmt: skip
CENTS = ("cost_cents", "fee_cents", "copay_cents", "paid_cents")
PAYMENT = {
    "type": "object",
    "properties": {name: TEXT for name in ("pharmacy", "date_of_service", "authorization", "prescription", "state")}
    | {name: NUMBER for name in ("number", "transaction", "payer", *CENTS)} | {"reversed_by": {"type": "integer", "nullable": True}},
}  # fmt: skip
TOTAL = {
    "type": "object",
    "properties": {name: NUMBER for name in ("payments", "standing_cents", "reversed", "reversed_cents")},
}
ORDER = {
    "type": "object", "required": ["order", "bin_number", "date_of_service", "transactions"],
    "properties": {
        "order": {"type": "string", "enum": ["billing", "reversal"]}, "bin_number": TEXT, "processor_control_number": TEXT,
        "service_provider_id_qualifier": TEXT, "service_provider_id": TEXT, "date_of_service": TEXT, "software_vendor_id": TEXT,
        "cardholder": TEXT,
        "transactions": {
            "type": "array", "minItems": 1, "maxItems": 4,
            "items": {
                "type": "object", "required": ["prescription", "fill"],
                "properties": {name: NUMBER for name in ("prescription", "fill", "quantity", "cost", "fee")} | {"product": TEXT},
            },
        },
    },
}  # fmt: skip
PROBLEM_SCHEMA = {
    "type": "object", "required": ["type", "title", "status", "name"],
    "properties": {name: TEXT for name in ("type", "title", "name", "detail", "field", "fault", "code")} | {"status": NUMBER, "at": NUMBER},
}  # fmt: skip
NULLABLE_NUMBER = {"type": "integer", "nullable": True}
FOUND = {
    "type": "object", "required": ["pharmacy", "number", "state", "transactions"],
    "properties": {
        "pharmacy": TEXT, "number": NUMBER, "key": NULLABLE, "state": {"type": "string", "enum": ["open", "answered"]}, "location": TEXT,
        "entered": TEXT, "answered": NULLABLE,
        "transactions": {
            "type": "array",
            "items": {
                "type": "object",
                "properties": {name: NULLABLE for name in ("order", "date_of_service", "prescription", "fill", "cardholder_last_four", "product",
                                                           "ruling", "reject_codes", "authorization")}
                | {name: NULLABLE_NUMBER for name in ("quantity_thousandths", "submitted_cents", "payer", "paid_cents", "copay_cents", "reversed_by")}
                | {"transaction": NUMBER},
            },
        },
    },
}  # fmt: skip
SENT = {"type": "object", "properties": {"to": TEXT, "carries": TEXT, "steps": {"type": "array", "items": NUMBER}}}
STEPS = {
    "type": "object", "required": ["pharmacy", "number", "steps"],
    "properties": {
        "pharmacy": TEXT, "number": NUMBER,
        "steps": {
            "type": "array",
            "items": {
                "type": "object",
                "properties": {
                    "number": NUMBER, "event": NUMBER, "time": NULLABLE_NUMBER, "node": TEXT, "does": {"type": "string", "enum": ["enters", "repeats", "takes"]},
                    "of": TEXT, "carries": TEXT, "sent": {"type": "array", "items": SENT},
                },
            },
        },
    },
}  # fmt: skip
REPLAY = {
    "type": "object",
    "required": ["settings", "events"],
    "properties": {"settings": TEXT, "events": {"type": "array", "items": TEXT}},
}


def _several(name: str, row: Document) -> Document:
    return {
        "type": "object",
        "properties": {
            name: {"type": "array", "items": row},
            "page": NUMBER,
            "size": NUMBER,
            "more": {"type": "boolean"},
        },
    }


def _sending() -> Document:
    claim = {"$ref": "#/components/schemas/Claim"}
    headers = {name: {"schema": TEXT} for name in ("Location", "Vogrilas-Number", "Idempotency-Key")}
    raw = {RAW: {"schema": {"type": "string", "format": "binary"}}}
    parts = {
        "type": "object",
        "required": ["parts"],
        "properties": {"parts": {"type": "array", "items": {"type": "object"}}},
    }
    body = {"oneOf": [{"$ref": "#/components/schemas/Order"}, parts]}
    key = {
        "name": "Idempotency-Key",
        "in": "header",
        "required": False,
        "description": "the same key is the same claim",
        "schema": {"type": "string", "maxLength": 128},
    }
    responses = {
        "200": _json("The answer, as bytes in time: the payer's, or a rejection", claim, headers, **raw),
        "202": _json("Entered, and still open", claim, headers),
    }
    refused = _refused(400, 401, 403, 404, 409, 413, 415, 422, 503, 504)
    for one in refused.values():
        # Who sends and wants a message's bytes gets a rejection of the standard.
        one["content"] |= raw
    return {
        "operationId": "sendClaim", "summary": "Send a claim", "parameters": [WAIT, key],
        "requestBody": {"required": True, "content": {**raw, "application/octet-stream": raw[RAW], "application/json": {"schema": body}}},
        "responses": responses | refused,
    }  # fmt: skip


def _payments(head: str) -> Document:
    own = [] if head else [OF_PHARMACY]
    by = _query("by", "what is summed by", "string", enum=["payer", "pharmacy", "day"])
    kinds = {"text/csv": {"schema": TEXT}}
    of = " of a pharmacy" if head else ""
    refused = (400, 401, 403, 404) if head else (400, 401, 403)
    totals = {"type": "object", "properties": {"by": TEXT, "totals": {"type": "array", "items": TOTAL}}}
    page = _several("payments", {"$ref": "#/components/schemas/Payment"})
    listed, summed = [*DAYS, STATE, *PAGES, FORMAT, *own], [*DAYS, STATE, by, *own]
    return {
        f"{head}/payments": {
            "get": _got(f"List payments{of}", "A page of payments", page, *refused, parameters=listed, **kinds)
        },
        f"{head}/totals": {"get": _got(f"Sum payments{of}", "Totals", totals, *refused, parameters=summed)},
    }


def _claims(head: str) -> Document:
    own = [] if head else [OF_PHARMACY]
    refused = (400, 401, 403, 404) if head else (400, 401, 403)
    page = _several("claims", {"$ref": "#/components/schemas/Found"})
    of = " of a pharmacy" if head else ""
    return _got(
        f"Find claims{of}", "A page of claims, the newest first", page, *refused, parameters=[*FINDS, *PAGES, *own]
    )


def document(pharmacies: list[str]) -> Document:
    """The document of a front for these pharmacies."""
    head = "/pharmacies/{pharmacy}"
    thing = {"type": "object"}
    raw = {RAW: {"schema": {"type": "string", "format": "binary"}}}
    number = {"name": "number", "in": "path", "required": True, "schema": {"type": "integer", "minimum": 1}}
    one = {"name": "pharmacy", "in": "path", "required": True, "schema": {"type": "string", "enum": pharmacies}}
    paths: Document = {
        f"{head}/claims": {"post": _sending(), "get": _claims(head)},
        "/claims": {"get": _claims("")},
        f"{head}/claims/{{number}}": {
            "parameters": [number],
            "get": _got("Read claim", "What is known of the claim", {"$ref": "#/components/schemas/Claim"}, 400, 401, 403, 404,
                        parameters=[WAIT], **raw),
        },
        f"{head}/claims/{{number}}/steps": {
            "parameters": [number], "get": _got("Follow claim", "The claim on its way through the nodes", STEPS, 401, 403, 404, 503),
        },
        f"{head}/events": {"get": _got("Hear answers of a pharmacy", "The numbers of claims as they are answered", thing, 401, 403, 404)},
        "/events": {"get": _got("Hear answers", "The claims of all pharmacies as they are answered", thing, 401, 403, parameters=[OF_PHARMACY])},
        **_payments(head), **_payments(""),
        "/who": {"get": _got("Read token", "What the token is for", thing, 401)},
        "/network": {"get": _got("Read network", "Each node at a glance", thing, 401, 403)},
        "/audit": {"get": _got("Audit logs", "Whether the logs are those of one legal run", thing, 401, 403, 503)},
        "/healthz": {"get": _got("Read health", "The front lives", thing) | {"security": []}},
        "/readyz": {"get": _got("Read readiness", "The front serves all that it should", thing, 503) | {"security": []}},
        "/openapi.json": {"get": _got("Read interface", "This document", thing) | {"security": []}},
        "/replay/schedules": {"get": _got("List schedules", "Their names", thing, 401)},
        "/replay/schedules/{name}": {
            "parameters": [{"name": "name", "in": "path", "required": True, "schema": TEXT}],
            "get": _got("Read schedule", "Settings and events", REPLAY, 401, 404),
        },
        "/replay": {"post": _got("Replay schedule", "The report of claimswitch, and its picture", thing, 400, 401, 503)
                    | {"requestBody": {"required": True, "content": {"application/json": {"schema": REPLAY}}}}},
    }  # fmt: skip
    for path, item in paths.items():
        if path.startswith(head):
            item["parameters"] = [one, *item.get("parameters", [])]
    for path in (f"{head}/events", "/events"):
        paths[path]["get"]["responses"]["200"]["content"] = {"text/event-stream": {"schema": TEXT}}
    schemas = {"Claim": CLAIM, "Found": FOUND, "Order": ORDER, "Payment": PAYMENT, "Problem": PROBLEM_SCHEMA}
    return {
        "openapi": "3.0.3", "info": {"title": "Vogrilas front", "version": "0.7.0", "description": "Claims over a claim switch: docs/FRONT.md"},
        "security": [{"token": []}], "paths": paths,
        "components": {"schemas": schemas, "securitySchemes": {"token": {"type": "http", "scheme": "bearer"}}},
    }  # fmt: skip
