# A third-party client of `relay serve`: Ruby's elasticsearch, as a service uses it. It reads what to write as JSON from standard
# input, and prints what it believes of each operation, one JSON text per line: whether it was written, its action and its item.
# Nothing of the client is skipped: it asks first whether the server is Elasticsearch.
require "json"
require "elasticsearch"

def believe(kind, item)
  puts JSON.generate([!item.key?("error"), { kind => item }])
end

def one_by_one(client, wanted)
  wanted["actions"].each do |action|
    document = { index: action["_index"], id: action["_id"] }.compact
    kind = action["_op_type"] || "index"
    begin
      believe(kind, kind == "delete" ? client.delete(**document) : client.index(**document, body: action["_source"]))
    rescue Elasticsearch::Transport::Transport::ServerError => error
      said = JSON.parse(error.message[/\{.*\}/m])
      believe(kind, "_id" => action["_id"], "status" => said["status"], "error" => said["error"])
    end
  end
end

# One call of the bulk API for each `count` actions.
def whole(client, wanted)
  wanted["actions"].each_slice(wanted["count"]) do |batch|
    lines = batch.flat_map do |action|
      kind = action["_op_type"] || "index"
      named = { kind => action.slice("_index", "_id") }
      kind == "delete" ? [named] : [named, action["_source"]]
    end
    client.bulk(body: lines)["items"].each { |answer| believe(*answer.first) }
  end
end

$stdin.set_encoding("UTF-8")
$stdout.set_encoding("UTF-8")
wanted = JSON.parse($stdin.read)
client = Elasticsearch::Client.new(host: "127.0.0.1", port: wanted["port"], retry_on_failure: false, transport_options: { request: { timeout: 120 } })
{ "one_by_one" => method(:one_by_one), "whole" => method(:whole) }[wanted["way"]].call(client, wanted)
