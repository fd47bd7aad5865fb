# Debian 12 with all that `./epaxos up` and `./epaxos test` need, by tools/needs.txt, but for the Rattle kit, which is
# mounted where it is run (.dockerignore keeps what builds made out of it):
#
#     docker build -t epaxos . && docker run --rm -v /opt/rattle:/opt/rattle:ro epaxos ./epaxos test
FROM debian:12
RUN apt-get update && apt-get install -y --no-install-recommends ca-certificates curl python3
RUN curl --proto '=https' --tlsv1.2 -fsS https://sh.rustup.rs | sh -s -- -y --profile minimal --default-toolchain 1.89.0
ENV PATH=/root/.cargo/bin:/opt/rattle/bin:$PATH
WORKDIR /epaxos
COPY tools/needs.py tools/needs.txt tools/
RUN tools/needs.py up && tools/needs.py test
COPY . .
CMD ["./epaxos", "test"]
