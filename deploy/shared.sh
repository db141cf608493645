# What the scripts beside this file share.

# fail TEXT: ends with status 1, and says why
fail() {
    echo "${0##*/}: $*" >&2
    exit 1
}

# sums_of FOLDER: the checksums of the copies of a desk in this folder, and of the file with their port
sums_of() {
    (cd -- "$1" && sha256sum -- desk.*)
}

# time_of BACKUP: when it was taken, in seconds, by its name
time_of() {
    local name=${1##*/}
    name=${name#before-}
    date -u -d "${name:0:10} ${name:11:2}:${name:13:2}:${name:15:2}" +%s
}

# after_backups: waits for the end of a backup, a quarter of an hour at most: it stops a desk, and deletes old ones
after_backups() {
    while ((SECONDS < 900)) && systemctl list-units --state activating --legend=no 'hotel_backup@*' | grep -q .; do
        sleep 1
    done
}
