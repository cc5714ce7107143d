//! One image held twice, once for the library and once for the reference.

use crate::context::{Context, Failure};
use crate::guarded::Guarded;
use crate::request::{expected, raw, shown, wrapped, Reply, Request};
use reference::model::{Answer, Call, Model};

/// Images up to this length are also given to the wrapper at every call.
const SHORT_IMAGE: usize = 1_024;

/// The library's image and the reference's image, which must stay equal.
pub struct Twin {
    library: Guarded,
    reference: Vec<u8>,
    before: Vec<u8>,
    calls: u64,
}

impl Twin {
    pub fn new(image: &[u8]) -> Twin {
        Twin {
            library: Guarded::new(image),
            reference: image.to_vec(),
            before: Vec::new(),
            calls: 0,
        }
    }

    /// Puts another image on both sides.
    pub fn load(&mut self, image: &[u8]) {
        self.library.load(image);
        self.reference.clear();
        self.reference.extend_from_slice(image);
    }

    /// The image's bytes, which are equal on both sides.
    pub fn image(&self) -> &[u8] {
        &self.reference
    }

    /// Makes a call on both sides and compares the answers and all bytes of the images.
    pub fn call(&mut self, ctx: &mut Context, request: &Request) -> Result<Reply, Failure> {
        if request.edits() {
            self.before.clone_from(&self.reference);
        }
        let wanted = expected(&mut self.reference, request);
        let found = raw(&mut self.library, request);
        self.calls += 1;
        ctx.comparisons += 1;
        ctx.tally.add(found.code, found.offset);
        let same_image = self.library.bytes() == self.reference && self.library.intact();
        if found != wanted || !same_image {
            return Err(self.failure(ctx, request, "library", &wanted, &found));
        }
        if request.edits() && found.code != 0 && self.before != self.reference {
            return Err(self.failure(ctx, request, "refused edit", &wanted, &found));
        }
        if self.reference.len() <= SHORT_IMAGE || self.calls.is_multiple_of(16) {
            self.call_wrapper(ctx, request, &wanted)?;
        }
        Ok(found)
    }

    /// Makes the call through the wrapper too, on a copy of the image as it was.
    fn call_wrapper(
        &self,
        ctx: &mut Context,
        request: &Request,
        wanted: &Reply,
    ) -> Result<(), Failure> {
        let mut copy = match request.edits() {
            true => self.before.clone(),
            false => self.reference.clone(),
        };
        let (found, byte) = wrapped(&mut copy, request);
        ctx.comparisons += 1;
        if found != *wanted || copy != self.reference {
            return Err(self.failure(ctx, request, "wrapper", wanted, &found));
        }
        let wanted_byte = wrong_byte(request, wanted);
        if byte != wanted_byte {
            let who = format!("byte in the wrapper's error, {byte:?} in place of {wanted_byte:?}");
            return Err(self.failure(ctx, request, &who, wanted, &found));
        }
        Ok(())
    }

    /// Makes a call on the library, the reference and the reference model.
    pub fn call_model(
        &mut self,
        ctx: &mut Context,
        model: &mut Model,
        call: &Call,
    ) -> Result<Reply, Failure> {
        let request = as_request(call);
        let found = self.call(ctx, &request)?;
        let answer = model.step(call);
        ctx.comparisons += 1;
        let wanted = as_reply(&answer);
        if found == wanted {
            return Ok(found);
        }
        Err(self.failure(
            ctx,
            &request,
            "library against the reference model",
            &wanted,
            &found,
        ))
    }

    /// Compares the area's pairs with the entries of the reference model.
    pub fn same_entries(&self, ctx: &mut Context, model: &Model) -> Result<(), Failure> {
        let image = self.library.bytes();
        let stored = Model::of_image(image);
        let what = "the area's pairs and the reference model's entries";
        ctx.same(what, stored.as_ref(), Ok(model))
            .map_err(|Failure(text)| Failure(format!("{text}\n  image:     {}", shown(image))))
    }

    fn failure(
        &self,
        ctx: &Context,
        request: &Request,
        who: &str,
        wanted: &Reply,
        found: &Reply,
    ) -> Failure {
        let image = match request.edits() {
            true => &self.before,
            false => &self.reference,
        };
        let mut text = format!(
            "  recipe:    {}\n  image:     {}\n  call:      {request} (call {} on these two images)\n",
            ctx.recipe,
            shown(image),
            self.calls
        );
        text += &format!("  differs:   {who}\n  wanted:    {wanted}\n  found:     {found}");
        if let Some(difference) = self.first_difference() {
            text += &format!("\n  bytes:     {difference}");
        }
        if !self.library.intact() {
            text += "\n  bytes:     bytes outside of the image changed";
        }
        Failure(text)
    }

    /// The first byte where the library's image differs from the reference's image.
    fn first_difference(&self) -> Option<String> {
        let pairs = self.library.bytes().iter().zip(&self.reference);
        let (at, (found, wanted)) = pairs.enumerate().find(|(_, (a, b))| a != b)?;
        Some(format!(
            "image offset {at} wanted {wanted:02x}, found {found:02x}"
        ))
    }
}

/// The byte of the caller's name at the index that 11 answers, if there is one.
fn wrong_byte(request: &Request, reply: &Reply) -> Option<u8> {
    match reply.code {
        11 => request.variable().get(reply.offset).copied(),
        _ => None,
    }
}

fn as_request(call: &Call) -> Request {
    match call.clone() {
        Call::Set { name, value } => Request::Set(name, value),
        Call::Remove { name } => Request::Remove(name),
        Call::Normalize => Request::Normalize,
        Call::Read { name, buffer } => Request::Read(name, buffer),
        Call::Count => Request::Count,
    }
}

fn as_reply(answer: &Answer) -> Reply {
    Reply {
        code: answer.code,
        offset: answer.offset,
        amounts: [answer.amount, 0, 0],
        buffer: answer.buffer.clone(),
        stray: false,
    }
}
