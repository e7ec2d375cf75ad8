//! A driver, the program that holds the library: started, asked over its
//! standard input and answering on its standard output. It ends at the end of
//! its input. And the listing program, started for each input.

use std::io::{self, Read, Write};
use std::process::{Child, ChildStdin, Command, ExitStatus, Stdio};
use std::sync::mpsc::{channel, Receiver, RecvTimeoutError, Sender};
use std::thread;
use std::time::{Duration, Instant};

use crate::calls::{Reply, Request};

/// A driver that was started.
pub struct Driver {
    child: Child,
    input: Option<ChildStdin>,
    /// How many bytes to read next, to the thread that reads.
    wanted: Sender<usize>,
    read: Receiver<io::Result<Vec<u8>>>,
    patience: Duration,
}

impl Driver {
    pub fn start(command: &[String], patience: Duration) -> io::Result<Driver> {
        let mut child = Command::new(&command[0])
            .args(&command[1..])
            .stdin(Stdio::piped())
            .stdout(Stdio::piped())
            .spawn()?;
        let input = child.stdin.take();
        let mut output = child.stdout.take().expect("piped");
        // Read in a thread, so that a driver that never answers is noticed.
        let (wanted, lengths) = channel::<usize>();
        let (bytes, read) = channel();
        thread::spawn(move || {
            for length in lengths {
                let mut buffer = vec![0; length];
                let outcome = output.read_exact(&mut buffer).map(|()| buffer);
                if bytes.send(outcome).is_err() {
                    return;
                }
            }
            // After the last answer nothing may follow.
            let mut rest = Vec::new();
            let outcome = output.read_to_end(&mut rest).map(|_| rest);
            let _ = bytes.send(outcome);
        });
        Ok(Driver {
            child,
            input,
            wanted,
            read,
            patience,
        })
    }

    /// Asks once; an error says how the driver failed.
    pub fn ask(&mut self, request: &Request) -> Result<Reply, String> {
        let input = self.input.as_mut().expect("open until the end");
        let sent = input
            .write_all(&request.bytes())
            .and_then(|()| input.flush());
        if let Err(error) = sent {
            return Err(self.failed(&format!("takes no request ({error})")));
        }
        let _ = self.wanted.send(request.reply_length());
        match self.read.recv_timeout(self.patience) {
            Ok(Ok(bytes)) => Ok(Reply::of_bytes(&bytes, request)),
            Ok(Err(error)) => Err(self.failed(&format!("gives no answer ({error})"))),
            Err(_) => {
                let _ = self.child.kill();
                Err(format!("no answer in {} seconds", self.patience.as_secs()))
            }
        }
    }

    fn failed(&mut self, how: &str) -> String {
        // Its end of a pipe is closed, so it has ended or is about to.
        self.input = None;
        match self.wait() {
            Ok(status) => format!("{how}, the driver ended: {status}"),
            Err(error) => format!("{how}, {error}"),
        }
    }

    /// The driver's exit status, for which it is given some seconds.
    fn wait(&mut self) -> Result<ExitStatus, String> {
        let begin = Instant::now();
        loop {
            match self.child.try_wait() {
                Ok(Some(status)) => return Ok(status),
                Ok(None) if begin.elapsed() > self.patience => {
                    let _ = self.child.kill();
                    return Err("the driver does not end".to_string());
                }
                Ok(None) => thread::sleep(Duration::from_millis(2)),
                Err(error) => return Err(error.to_string()),
            }
        }
    }

    /// Ends the input; the driver must then end well and write nothing more.
    pub fn end(mut self) -> Result<(), String> {
        self.input = None;
        // Without lengths to come, the thread reads to the end.
        self.wanted = channel().0;
        match self.read.recv_timeout(self.patience) {
            Ok(Ok(rest)) if rest.is_empty() => {}
            Ok(Ok(rest)) => return Err(format!("the driver wrote {} bytes more", rest.len())),
            Ok(Err(error)) => return Err(error.to_string()),
            Err(RecvTimeoutError::Timeout) => {
                let _ = self.child.kill();
                return Err("the driver does not end".to_string());
            }
            Err(RecvTimeoutError::Disconnected) => {}
        }
        match self.wait()? {
            status if status.success() => Ok(()),
            status => Err(format!("the driver ended: {status}")),
        }
    }
}

/// What the listing program prints for an input; an error says how it failed.
pub fn list(command: &[String], input: &[u8], patience: Duration) -> Result<Vec<u8>, String> {
    let mut child = Command::new(&command[0])
        .args(&command[1..])
        .stdin(Stdio::piped())
        .stdout(Stdio::piped())
        .spawn()
        .map_err(|error| format!("the listing program does not start: {error}"))?;
    let mut to = child.stdin.take().expect("piped");
    let mut from = child.stdout.take().expect("piped");
    let input = input.to_vec();
    // It may stop reading where the input is too long; that is its right.
    thread::spawn(move || to.write_all(&input));
    let (sender, read) = channel();
    thread::spawn(move || {
        let mut printed = Vec::new();
        let outcome = from.read_to_end(&mut printed).map(|_| printed);
        let _ = sender.send(outcome);
    });
    let Ok(printed) = read.recv_timeout(patience) else {
        let _ = child.kill();
        let _ = child.wait();
        return Err(format!("no end in {} seconds", patience.as_secs()));
    };
    let printed = printed.map_err(|error| error.to_string())?;
    match child.wait() {
        // No paper says with which status it ends, but it ends by itself.
        Ok(status) if status.code().is_some() => Ok(printed),
        Ok(status) => Err(format!("the listing program ended: {status}")),
        Err(error) => Err(error.to_string()),
    }
}
