# A conference under Nomad, one job each: `nomad job run -var conference=monday -var port=5004 -var settings=monday.toml sfu.nomad.hcl`.
# What it has to know, and what it can't do, stands at the end of docs/OPERATING.md.

variable "conference" {
  type        = string
  description = "The conference's name; the job is named after it."
}

variable "port" {
  type        = number
  description = "The UDP port, the one that `listen` has in the settings. A machine has one conference on it."
}

variable "settings" {
  type        = string
  description = "The settings, a file beside this one. Their `listen` is 0.0.0.0 and the port."
}

job "sfu" {
  id          = "sfu-${var.conference}"
  type        = "service"
  datacenters = ["*"]

  group "conference" {
    # Never more than one: two processes of one conference know nothing of each other.
    count = 1

    network {
      # The machine's own network: endpoints are known by their addresses and ports.
      mode = "host"
      port "media" {
        static = var.port
      }
    }

    # Another machine has another address, which the endpoints have to be told: so it stays where it is.
    reschedule {
      attempts  = 0
      unlimited = false
    }

    restart {
      attempts = 10
      interval = "10m"
      delay    = "5s"
      mode     = "delay"
    }

    task "sfu" {
      driver = "exec"
      user   = "nobody"

      # As the first process of its namespace it ignores SIGINT, and is killed after so long.
      kill_timeout = "1s"

      config {
        command = "/usr/bin/sfu"
        args    = ["serve", "${NOMAD_TASK_DIR}/conference.toml", "--status", "60", "--log-why"]
      }

      template {
        data        = file(var.settings)
        destination = "local/conference.toml"
        change_mode = "restart"
      }

      # The processor time that its datagrams take, and the packets that it keeps: docs/OPERATING.md has the sums.
      resources {
        cpu        = 250
        memory     = 64
        memory_max = 256
      }
    }
  }
}
