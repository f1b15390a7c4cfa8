# What an administrator does in a system that is booted, with the packages in /srv/check/packages, those of the version before in
# /srv/check/before, the wheel in /srv/check/wheel and the settings of the examples in /srv/check/examples. It prints a line
# `row SECONDS LIMIT ok|failed WHAT` for each thing, behind what went wrong.
cd /srv/check || exit
export DEBIAN_FRONTEND=noninteractive
socket=/run/bulkhead/share.sock

# Runs a command, and tells how it went: `row LIMIT WHAT COMMAND..`.
row() {
    local limit=$1 what=$2 began ended outcome=ok
    shift 2
    began=$(date +%s%N)
    "$@" >/srv/check/log 2>&1 || outcome=failed
    ended=$(date +%s%N)
    [ $outcome = ok ] || cat /srv/check/log
    printf 'row %d.%02d %s %s %s\n' $(((ended - began) / 1000000000)) $(((ended - began) / 10000000 % 100)) "$limit" $outcome "$what"
}

# The paths of the system that a package may leave something at.
paths() {
    find / -xdev \( -path /proc -o -path /sys -o -path /dev -o -path /tmp -o -path /root -o -path /srv/check -o -path /var/lib/dpkg -o -path /var/log \
        -o -path /var/cache \) -prune -o -print | grep -v '\.pyc$\|__pycache__$' | sort
}

# Asks for a decision as a user, over the socket.
decides() {
    su "$1" -s /bin/sh -c "/srv/check/trial/bin/python - $socket" <<'PYTHON'
import sys
import bulkhead

client = bulkhead.connect(sys.argv[1])

@client.command("payment")
def charge(order):
    return f"order {order} is paid"

sys.exit(charge(7) != "order 7 is paid")
PYTHON
}

trial() {
    python3 -m venv trial && trial/bin/pip install -q --no-index wheel/*.whl && trial/bin/python - <<'PYTHON'
import sys
import bulkhead

service = bulkhead.open(text='service.groups = ["payment"]')

@service.command("payment", fallback=lambda order, *, cause: "pay on delivery")
def charge(order):
    return f"order {order} is paid"

sys.exit(charge(7) != "order 7 is paid")
PYTHON
}

first_decision() {
    dpkg -i packages/*.deb && usermod -a -G bulkhead worker && systemctl start bulkhead && decides worker
}

example() {
    local from=/usr/share/doc/libbulkhead-dev/examples/full-pool
    bulkhead run $from/settings.toml <$from/script.jsonl | diff - $from/replies.jsonl
}

has_rights() {
    [ "$(stat -c '%a %G' $socket)" = "660 bulkhead" ] && [ "$(stat -c '%a %G' /run/bulkhead)" = "750 bulkhead" ]
}

refuses_stranger() {
    ! decides stranger 2>refused && grep -q 'Unreachable\|PermissionError' refused
}

runs_as_nobody_known() {
    local user
    user=$(stat -c %u "/proc/$(systemctl show -P MainPID bulkhead)") && echo "the user is $user" && [ "$user" -ge 61184 ]
}

refuses_settings() {
    cp /etc/bulkhead/settings.toml kept && echo 'service.groups = 7' >/etc/bulkhead/settings.toml
    ! systemctl restart bulkhead && journalctl -u bulkhead | grep 'settings refused' && systemctl show -p NRestarts bulkhead | grep -x NRestarts=0 &&
        cp kept /etc/bulkhead/settings.toml && systemctl restart bulkhead && decides worker
}

starts_again() {
    local before
    before=$(systemctl show -P MainPID bulkhead) && kill -KILL "$before"
    until decides worker; do [ $((tries += 1)) -lt 50 ] || return 1; sleep 0.1; done
    [ "$(systemctl show -P MainPID bulkhead)" != "$before" ] && has_rights
}

upgrades() {
    local before
    systemctl enable bulkhead && dpkg --force-downgrade --force-confnew -i before/*.deb && systemctl restart bulkhead &&
        echo '# mine' >>/etc/bulkhead/settings.toml && cp /etc/bulkhead/settings.toml kept &&
        before=$(systemctl show -P MainPID bulkhead) && dpkg --force-confdef --force-confold -i packages/*.deb &&
        cmp kept /etc/bulkhead/settings.toml && [ -f /etc/bulkhead/settings.toml.dpkg-dist ] && systemctl is-enabled bulkhead &&
        decides worker && [ "$(systemctl show -P MainPID bulkhead)" != "$before" ]
}

removes() {
    dpkg --remove bulkhead libbulkhead-dev "$library" && [ -f /etc/bulkhead/settings.toml ] && ! systemctl is-active bulkhead && [ ! -e $socket ]
}

purges() {
    rm -f /etc/bulkhead/settings.toml.dpkg-dist && dpkg --purge bulkhead libbulkhead-dev "$library" && paths >after && diff earlier after &&
        ! getent group bulkhead
}

useradd worker && useradd stranger
chmod 755 /srv/check
library=$(cd packages && dpkg-deb -f libbulkhead[0-9]*.deb Package)
row 20 "the wheel: from the file to the first decision" trial
paths >earlier
row 60 "the packages: from the files to a client's first decision" first_decision
row - "the README's example is answered as it should be" example
row - "a program in C that was compiled elsewhere, over the package" ./compiled
row - "the group may open the socket, and nobody else" has_rights
row - "a user who is not in the group is refused" refuses_stranger
row - "the service runs as a user who is there while it runs" runs_as_nobody_known
row - "refused settings are told, and tried once" refuses_settings
row - "a service that is killed is there again" starts_again
row - "an upgrade keeps changed settings, and restarts the service" upgrades
row - "a removal ends the service, and keeps the settings" removes
row - "a purge leaves nothing" purges
