# A container of pnfs_osd, out of the Debian package (docs/use/OPERATIONS.md, "With systemd", says how that is built):
#
#     podman build --build-arg PACKAGE=pnfs-osd_0.2.0_amd64.deb -t pnfs_osd .
#
# The package has to be in this folder. The words after the image's name are the program's, and the cluster text is the
# container's standard input:
#
#     podman run --init -i --network host -v d0:/var/lib/pnfs_osd pnfs_osd \
#         stored-drive --number 0 --connections 4294967295 --store /var/lib/pnfs_osd/d0.store < cluster.toml
#     podman run --init -i --network host --entrypoint pnfs -v ./cluster.toml:/etc/pnfs_osd/cluster.toml:ro pnfs_osd \
#         -c /etc/pnfs_osd/cluster.toml status
FROM docker.io/library/debian:bookworm-slim
ARG PACKAGE
COPY ${PACKAGE} /tmp/pnfs-osd.deb
RUN apt-get update \
    && apt-get install -y --no-install-recommends systemd-standalone-sysusers /tmp/pnfs-osd.deb \
    && rm -rf /tmp/pnfs-osd.deb /var/lib/apt/lists/* \
    && install -d -o pnfs -g pnfs -m 700 /var/lib/pnfs_osd
USER pnfs
VOLUME /var/lib/pnfs_osd
STOPSIGNAL SIGTERM
ENTRYPOINT ["/usr/bin/pnfs_osd"]
