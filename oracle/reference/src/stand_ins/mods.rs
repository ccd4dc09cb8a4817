//! Stand-in for model/mods.rs: mods are a key choice.

#[derive(Clone)]
pub struct GameMods {
    /// 0 for none, else the column count.
    pub key_choice: u8,
}

impl GameMods {
    pub fn mania_keys(&self) -> Option<f32> {
        (self.key_choice != 0).then_some(f32::from(self.key_choice))
    }

    pub fn ho(&self) -> bool {
        false
    }

    pub fn invert(&self) -> bool {
        false
    }

    pub fn random_seed(&self) -> Option<i32> {
        None
    }
}

/// Named by `Slider::curve` only.
pub enum Reflection {
    None,
    Vertical,
    Horizontal,
    Both,
}

/// Named by `prepare_map` only.
pub struct Difficulty {
    mods: GameMods,
}

impl Difficulty {
    pub fn get_mods(&self) -> &GameMods {
        &self.mods
    }
}
