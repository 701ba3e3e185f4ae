-- What `wrk` sends for bench/serve, and what it prints in the end.
--
--     wrk .. -s bench/load.lua URL -- METHOD TARGET BODY CONNECTION
--
-- Each {n} in the target or the body is replaced by a text that no other request of the run has. The last line of the output is
-- `measured`, the number of responses, the microseconds of the run, the number of failed requests, and the median and the 99th
-- percentile of the time to a response in microseconds.

local threads = 0

function setup(thread)
    threads = threads + 1
    thread:set("thread_number", threads)
end

function init(args)
    local method, target, body, connection = args[1], args[2], args[3], args[4]
    local headers = { ["Connection"] = connection }
    wrk.method, wrk.path, wrk.headers["Connection"] = method, target, connection
    if body ~= "" then
        wrk.body = body
    end
    if target:find("{n}", 1, true) or body:find("{n}", 1, true) then
        local sent = 0
        -- wrk calls `request` for each request if there is such a function, and otherwise sends the same bytes every time.
        function request()
            sent = sent + 1
            local number = thread_number .. "-" .. sent
            return wrk.format(method, target:gsub("{n}", number), headers, body:gsub("{n}", number))
        end
    end
end

function done(summary, latency)
    local errors = summary.errors
    local failed = errors.status + errors.connect + errors.read + errors.write
    local median, late = latency:percentile(50), latency:percentile(99)
    io.write(string.format("measured %d %d %d %.0f %.0f\n", summary.requests, summary.duration, failed, median, late))
end
