-- A client's requests. Argument 1 is their kind: id, latest, list, lookup, parameters, known, check or new. Argument 2 makes the names of a run unique.
local kind, run, number, failed = nil, nil, 0, 0
local function schema(name)
  local fields = {}
  for at = 1, 20 do fields[at] = string.format([[{\"name\":\"field_%d\",\"type\":[\"null\",\"string\"],\"default\":null}]], at) end
  return string.format([[{"schema":"{\"type\":\"record\",\"name\":\"%s\",\"fields\":[%s]}"}]], name, table.concat(fields, ","))
end
function init(arguments)
  kind, run = arguments[1], arguments[2]
end
function request()
  number = number + 1
  if kind == "id" then return wrk.format("GET", "/schemas/ids/1") end
  if kind == "latest" then return wrk.format("GET", "/subjects/orders/versions/latest") end
  if kind == "list" then return wrk.format("GET", "/subjects") end
  if kind == "check" then return wrk.format("POST", "/compatibility/subjects/orders/versions/latest", nil, schema("Order")) end
  if kind == "lookup" then return wrk.format("POST", "/subjects/orders", nil, schema("Order")) end
  if kind == "parameters" then return wrk.format("POST", "/subjects/orders?normalize=false&deleted=false", nil, schema("Order")) end
  if kind == "known" then return wrk.format("POST", "/subjects/orders/versions", nil, schema("Order")) end
  return wrk.format("POST", "/subjects/" .. run .. "_" .. number .. "/versions", nil, schema("R" .. run .. "_" .. number))
end
function done(summary)
  local wrong = summary.errors.status + summary.errors.read + summary.errors.write + summary.errors.timeout + summary.errors.connect
  io.write(string.format("RATE %.0f %d\n", summary.requests / summary.duration * 1e6, wrong))
end
