# mapf and its tools in a container. In a clone, with docker or podman:
#
#   docker build --tag mapf .
#   docker run --rm --init --volume "$PWD:/work" mapf mapf solve MAP SCEN K LIMIT PLAN CERT
#   docker run --rm --init --volume "$PWD:/work" mapf mapf check MAP SCEN K PLAN CERT
#   docker run --rm --init --volume "$PWD:/work" mapf verify MAP SCEN K ANSWER
#
# Cargo builds the program from the clone's sources, without a proof. The image has the program and the tools, and
# nothing of Rust. Files are named by their paths in /work. With --init, Ctrl-C ends a run. What docker's runs write
# belongs to root; `--user "$(id -u):$(id -g)"` makes it yours.
ARG RUST=docker.io/library/rust:1.95-slim-bookworm
ARG BASE=docker.io/library/python:3.13-slim-bookworm

FROM ${RUST} AS build
WORKDIR /build
COPY Cargo.toml Cargo.lock build.rs crates.txt ./
COPY crates crates
COPY rust rust
RUN cargo build --release --offline

FROM ${BASE}
WORKDIR /opt/mapf
COPY LICENSE ./
COPY python python
COPY tools tools
COPY --from=build /build/target/release/mapf ./
ENV PATH=/opt/mapf:/opt/mapf/tools:$PATH
WORKDIR /work
CMD ["mapf", "--help"]
