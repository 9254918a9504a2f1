-- The front of codenav in nginx: a request is sent to the server until a whole reply is there;
-- writes can be held while one server takes the place of another.
local M = {}
local LONGEST, PAUSE = 600, 0.2
local AWAY = 2
local METHODS = {
    GET = ngx.HTTP_GET, HEAD = ngx.HTTP_HEAD, PUT = ngx.HTTP_PUT, DELETE = ngx.HTTP_DELETE,
    POST = ngx.HTTP_POST, PATCH = ngx.HTTP_PATCH, OPTIONS = ngx.HTTP_OPTIONS, TRACE = ngx.HTTP_TRACE,
}
local shared = ngx.shared.codenav

-- The side of the server that's in use, by the file in which `codenav supervise` keeps it; called
-- when nginx starts, and when it's reloaded.
function M.begin(path)
    local file = io.open(path)
    local side = file and file:read("*l")
    if file then file:close() end
    shared:set("side", side == "b" and "b" or "a")
end

local function answer(status, text)
    ngx.status = status
    ngx.header["Content-Type"] = "application/json"
    ngx.header["Content-Length"] = #text
    ngx.print(text)
end

-- Counts what's under way. Each worker has a count of its own, which is void when it was killed.
local function add(what, count)
    shared:incr(what .. ":" .. ngx.worker.pid(), count, 0)
end

local function under_way(what)
    local sum = 0
    for _, key in ipairs(shared:get_keys(0)) do
        local worker = key:match("^" .. what .. ":(%d+)$")
        local file = worker and io.open("/proc/" .. worker .. "/stat")
        if file then
            file:close()
            sum = sum + shared:get(key)
        elseif worker then
            shared:delete(key)
        end
    end
    return sum
end

-- The name of the upstream that's in use.
local function side_now()
    return "codenav_" .. shared:get("side")
end

-- Whether a reply is the server's own, and whole: nginx answers 502 and 504 where it has none. To
-- HEAD there's a length without a body, which nginx calls cut.
local function is_whole(reply, method)
    if reply.status == 502 or reply.status == 504 then return false end
    return not reply.truncated or method == ngx.HTTP_HEAD
end

-- One try. A write counts as under way before it looks whether writes are held, so who holds them
-- and then sees none under way knows that none begins. While a server is away, one request of those
-- for it looks whether it's there again, so that nginx doesn't log each of them over and over.
local function try(method, is_write)
    local away = "away:" .. (ngx.var.codenav_shard or "")
    if is_write and shared:get("held") then return nil end
    if shared:get(away) and not shared:add("look:" .. away, true, PAUSE) then return nil end
    if is_write then
        add("writes", 1)
        if shared:get("held") then
            add("writes", -1)
            return nil
        end
    end
    local options = {
        method = method,
        always_forward_body = true,
        -- by which the server is picked where there are several; the path goes on by $request_uri
        args = ngx.var.args or "",
        vars = { codenav_side = side_now() },
    }
    shared:incr("asked", 1, 0)
    local begin = ngx.now()
    local reply = ngx.location.capture("/-server-", options)
    ngx.update_time()
    ngx.ctx.server = ngx.now() - begin
    if is_write then add("writes", -1) end
    if is_whole(reply, method) then shared:delete(away) else shared:set(away, true, AWAY) end
    return reply
end

-- The whole reply to this request, or nil where none came in so many seconds, or the client has
-- gone; and the number of tries.
local function reply_within(method, is_write, seconds)
    local is_gone = false
    ngx.on_abort(function() is_gone = true end)
    local last, tries = ngx.now() + seconds, 0
    repeat
        local reply = try(method, is_write)
        tries = tries + (reply and 1 or 0)
        if reply and is_whole(reply, method) then return reply, tries end
        if tries == 1 and reply then
            ngx.log(ngx.ERR, "codenav: no whole reply, so sent again: ", ngx.var.request_uri)
        end
        ngx.sleep(reply and PAUSE or PAUSE / 10)
        ngx.update_time()
    until is_gone or ngx.now() > last
    return nil, tries
end

function M.serve()
    ngx.req.read_body()
    local name = ngx.req.get_method()
    local method = METHODS[name]
    if not method then return answer(405, '{"fault":"H07","text":"method not allowed"}') end
    add("waiting", 1)
    local reply, tries = reply_within(method, name == "PUT" or name == "DELETE", LONGEST)
    add("waiting", -1)
    ngx.var.codenav_tries = tries
    local server = ngx.ctx.server or 0
    ngx.ctx.queue = ngx.now() - ngx.req.start_time() - server
    ngx.var.codenav_queue_ms = ("%d"):format(ngx.ctx.queue * 1000)
    ngx.var.codenav_server_ms = ("%d"):format(server * 1000)
    if tries > 1 then shared:incr("codenav_sent_again_total", tries - 1, 0) end
    if not reply then return ngx.exit(503) end
    if reply.status >= 400 then ngx.var.codenav_fault = reply.body:match('"fault":"(%w+)"') or "" end
    ngx.status = reply.status
    ngx.header["Content-Type"] = reply.header["Content-Type"]
    ngx.header["Allow"] = reply.header["Allow"]
    ngx.header["Content-Length"] = #reply.body
    ngx.print(reply.body)
end

-- Whether the server answers now: /-projects- has a time limit of its own.
function M.health()
    shared:incr("asked", 1, 0)
    local reply = ngx.location.capture("/-projects-", { vars = { codenav_side = side_now() } })
    if reply.status == 200 then return answer(200, '{"health":"answers"}') end
    return ngx.exit(503)
end

-- Counts a request that has been answered, by whoever did.
function M.count()
    local name = METHODS[ngx.req.get_method()] and ngx.req.get_method() or "other"
    local labels = ('method="%s",kind="%s",status="%s"'):format(name, ngx.var.codenav_kind, ngx.status)
    shared:incr("codenav_requests_total{" .. labels .. "}", 1, 0)
    local fault = ngx.var.codenav_fault
    if fault ~= "" then
        shared:incr(('codenav_faults_total{kind="%s",fault="%s"}'):format(ngx.var.codenav_kind, fault), 1, 0)
    end
    shared:incr("codenav_request_seconds_total", tonumber(ngx.var.request_time) or 0, 0)
    shared:incr("codenav_server_seconds_total", ngx.ctx.server or 0, 0)
    shared:incr("codenav_queue_seconds_total", ngx.ctx.queue or 0, 0)
end

-- The counts, as Prometheus reads them, and what `codenav supervise` says of the service.
function M.metrics()
    local keys = shared:get_keys(0)
    table.sort(keys)
    for _, key in ipairs(keys) do
        if key:match("^codenav_") then ngx.say(key, " ", shared:get(key)) end
    end
    ngx.say("codenav_waiting ", under_way("waiting"))
    ngx.say("codenav_writes_held ", shared:get("held") and 1 or 0)
    local own = io.open("/run/codenav/codenav.prom")
    if own then
        ngx.print(own:read("*a"))
        own:close()
    end
end

-- What `codenav supervise` asks for. /hold?seconds=N holds writes for so long. /turn?side=b goes to
-- the other side and lets writes go on, where they were held until now, and else changes nothing
-- (409). /use?side=b goes there whatever was before. Each answers what holds then.
local COMMANDS = {
    ["/state"] = function() return true end,
    -- a hold of no length would never end
    ["/hold"] = function()
        local seconds = tonumber(ngx.var.arg_seconds) or 0
        return seconds > 0 and shared:set("held", true, seconds)
    end,
    ["/release"] = function() shared:delete("held") return true end,
    ["/use"] = function() return shared:set("side", ngx.var.arg_side) end,
    ["/turn"] = function()
        if not shared:get("held") then return false end
        shared:set("side", ngx.var.arg_side)
        shared:delete("held")
        return true
    end,
}

function M.command()
    local command, side = COMMANDS[ngx.var.uri], ngx.var.arg_side
    if not command or side and side ~= "a" and side ~= "b" or ngx.var.uri == "/use" and not side then
        return answer(404, '{"fault":"front","text":"no such command"}')
    end
    local was_held = shared:get("held") == true
    local status = command() and 200 or 409
    answer(status, ('{"asked":%d,"held":%s,"side":"%s","was_held":%s,"writes":%d}'):format(
        shared:get("asked") or 0, tostring(shared:get("held") == true), shared:get("side"),
        tostring(was_held), under_way("writes")))
end

return M
