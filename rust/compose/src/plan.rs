//! What a call asks for, worked out from what it is handed: the pixels of its largest picture, and
//! the bytes that it must be lent. None stands for a refusal: the call has it.

use crate::derived::{GridDescriptor, OverlayDescriptor};
use crate::form::{Form, plane_size};
use crate::lend::narrow;
use crate::record::{PlaneInfo, RecordInfo};
use crate::scene::Scene;
use crate::{chain, sys, tray};

/// What a call asks for.
#[derive(Clone, Copy, Debug, PartialEq, Eq)]
pub(crate) struct Asked {
    pub pixels: u64,
    pub bytes: usize,
}

impl From<Form> for Asked {
    /// A tight record.
    fn from(form: Form) -> Self {
        Self {
            pixels: form.pixels(),
            bytes: form.record_size(),
        }
    }
}

impl Asked {
    /// A record that is handed back as it is.
    pub fn same(info: &RecordInfo, record: &[u8]) -> Self {
        Self {
            pixels: info.form().pixels(),
            bytes: record.len(),
        }
    }

    /// Room for either of two.
    fn or(self, other: Self) -> Self {
        Self {
            pixels: self.pixels.max(other.pixels),
            bytes: self.bytes.max(other.bytes),
        }
    }
}

/// The master's colour planes as they are, and an alpha plane: the other's first one as it is where
/// size and depth are the master's, else one without a gap.
pub(crate) fn attached(master: &RecordInfo, alpha: &RecordInfo) -> Asked {
    let (of, from) = (master.form(), alpha.form());
    let kept = |plane: &PlaneInfo| plane_size([plane.stride as u32, plane.len as u32]);
    let colours = master.planes[..3].iter().filter(|plane| plane.len > 0);
    let like = |form: Form| (form.width, form.height, form.format.bit_depth);
    let alpha = match like(of) == like(from) {
        true => kept(&alpha.planes[0]),
        false => plane_size(of.plane(0)),
    };
    Asked {
        pixels: of.pixels(),
        bytes: of.head_size() + colours.map(kept).sum::<usize>() + alpha,
    }
}

/// The composed picture of a grid.
pub(crate) fn grid(body: &[u8], tray: &[u8]) -> Option<Form> {
    let grid = GridDescriptor::parse(body).ok()?;
    let mut forms = tray::forms(tray)?;
    let first = forms.next()??;
    let mut alpha = first.format.has_alpha;
    for form in forms {
        alpha |= form?.format.has_alpha;
    }
    let format = first.format.with_has_alpha(alpha);
    Form { format, ..first }.on_grid(&grid)
}

/// The composed picture of an overlay.
pub(crate) fn overlay(body: &[u8], tray: &[u8]) -> Option<Form> {
    let inputs: Vec<Form> = tray::forms(tray)?.collect::<Option<_>>()?;
    let overlay = OverlayDescriptor::parse(body, inputs.len()).ok()?;
    Form::of_overlay(&overlay, &inputs)
}

/// The largest of a picture of that form and those after each applied property of a chain.
pub(crate) fn along(mut form: Form, chain: &[u8], essential_only: bool) -> Option<Asked> {
    let mut asked = Asked::from(form);
    for entry in chain::entries(chain).ok()? {
        if entry.essential || !essential_only {
            form = form.after(&entry.property)?;
            asked = asked.or(form.into());
        }
    }
    Some(asked)
}

/// The longest of a scene's composed record and the records after each property.
pub(crate) fn scene(scene: &Scene) -> Option<Asked> {
    let Scene {
        body, tray, chain, ..
    } = *scene;
    let flag = u8::from(scene.essential_only);
    let (form, room) = match &scene.marks {
        None => (
            grid(body, tray)?,
            sys::compose_grid_scene_room(body, tray, chain, flag),
        ),
        Some(marks) => (
            overlay(body, tray)?,
            sys::compose_overlay_scene_room(body, tray, chain, flag, marks.premultiplied),
        ),
    };
    Some(Asked {
        bytes: narrow(room.ok()?),
        ..along(form, chain, scene.essential_only)?
    })
}
