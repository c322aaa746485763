//! What goes into the calls and comes back, alike for the three programs that are measured.

#[derive(Clone, Copy)]
pub struct Parameters {
    pub dt: f64,
    pub tau: f64,
    pub k: f64,
    pub f: f64,
    pub advection: bool,
}

#[derive(Clone, Copy)]
pub struct Clock {
    pub step: u32,
}

impl Clock {
    pub const COLD: Clock = Clock { step: 0 };

    pub fn advanced(self) -> Clock {
        Clock { step: self.step + 1 }
    }
}

/// Number, place and value of the refusal table; number 0 accepts.
#[derive(Clone, Copy, Debug)]
pub struct Answer {
    pub number: u32,
    pub place: usize,
    pub value: f64,
}

impl Answer {
    pub fn accepted(place: usize) -> Answer {
        Answer::refused(0, place)
    }

    pub fn refused(number: u32, place: usize) -> Answer {
        Answer { number, place, value: 0.0 }
    }
}

/// What came of a list of forcings: the answer of the last one that was asked, the clock after those that were accepted, and their count.
pub struct Stepped {
    pub answer: Answer,
    pub clock: Clock,
    pub accepted: u32,
}

/// A mesh and its parameters, as they are lent.
#[derive(Clone, Copy)]
pub struct Mesh<'a> {
    pub x: &'a [i32],
    pub y: &'a [i32],
    pub tri: &'a [u16],
    pub h: &'a [f64],
    pub kind: &'a [u8],
    pub p: Parameters,
}

impl<'a> Mesh<'a> {
    pub fn nodes(&self) -> usize {
        self.x.len()
    }

    pub fn triangles(&self) -> usize {
        self.tri.len() / 3
    }

    /// The node numbers of each triangle's corners, by ascending triangle.
    pub fn corners(&self) -> impl Iterator<Item = [usize; 3]> + 'a {
        let (triples, _) = self.tri.as_chunks::<3>();
        triples.iter().map(|corners| corners.map(usize::from))
    }
}

/// The slices that a step may write.
pub struct Rooms<'a> {
    pub next: &'a mut [f64],
    pub work: &'a mut [f64],
    pub sums: &'a mut [u64],
}

/// The slices that a grid text is read into.
pub struct GridRooms<'a> {
    pub x: &'a mut [i32],
    pub y: &'a mut [i32],
    pub h: &'a mut [f64],
    pub tri: &'a mut [u16],
}

impl GridRooms<'_> {
    /// Of x, y, h and the triangles.
    pub fn lengths(&self) -> [usize; 4] {
        [self.x.len(), self.y.len(), self.h.len(), self.tri.len()]
    }
}

/// What a grid text gives of a mesh.
pub struct Grid {
    pub x: Vec<i32>,
    pub y: Vec<i32>,
    pub h: Vec<f64>,
    pub tri: Vec<u16>,
}

impl Grid {
    /// Rooms of these lengths, of x, y, h and the triangles.
    pub fn of([x, y, h, tri]: [usize; 4]) -> Grid {
        Grid { x: vec![0; x], y: vec![0; y], h: vec![0.0; h], tri: vec![0; tri] }
    }

    pub fn rooms(&mut self) -> GridRooms<'_> {
        GridRooms { x: &mut self.x, y: &mut self.y, h: &mut self.h, tri: &mut self.tri }
    }

    /// All of it, for comparing.
    pub fn bits(&self) -> Vec<u64> {
        let metres = self.x.iter().chain(&self.y).map(|&metres| metres as u64);
        let depths = self.h.iter().map(|depth| depth.to_bits());
        metres.chain(depths).chain(self.tri.iter().map(|&corner| corner.into())).collect()
    }
}

/// A state's six runs.
#[derive(Clone, Copy)]
pub struct State<'a> {
    pub earlier: &'a [f64],
    pub z: &'a [f64],
    pub u: &'a [f64],
    pub v: &'a [f64],
    pub wx: &'a [f64],
    pub wy: &'a [f64],
}

impl<'a> State<'a> {
    /// The runs of n numbers of a slice of 6n.
    pub fn of(numbers: &'a [f64], n: usize) -> State<'a> {
        let (earlier, rest) = numbers.split_at(n);
        let (z, rest) = rest.split_at(n);
        let (u, rest) = rest.split_at(n);
        let (v, rest) = rest.split_at(n);
        let (wx, wy) = rest.split_at(n);
        State { earlier, z, u, v, wx, wy }
    }

    /// The runs into a slice of 6n.
    pub fn write(self, numbers: &mut [f64]) {
        let runs = [self.earlier, self.z, self.u, self.v, self.wx, self.wy];
        for (room, run) in numbers.chunks_exact_mut(self.z.len()).zip(runs) {
            room.copy_from_slice(run);
        }
    }
}

/// A forcing's elevation and its new winds.
#[derive(Clone, Copy)]
pub struct Forcing<'a> {
    pub elevation: f64,
    pub wx: &'a [f64],
    pub wy: &'a [f64],
}

impl<'a> Forcing<'a> {
    /// Of a slice of 1+2n.
    pub fn of(numbers: &'a [f64], n: usize) -> Forcing<'a> {
        let (wx, wy) = numbers[1..].split_at(n);
        Forcing { elevation: numbers[0], wx, wy }
    }
}

/// Gives every node one wind, in two runs of Wx and Wy.
pub fn fill_winds(runs: &mut [f64], [wx, wy]: [f64; 2]) {
    let (all_wx, all_wy) = runs.split_at_mut(runs.len() / 2);
    all_wx.fill(wx);
    all_wy.fill(wy);
}

/// What a step knows of every node before its U' and V'.
#[derive(Clone, Copy)]
pub struct Known<'a> {
    pub z_new: &'a [f64],
    pub forcing: Forcing<'a>,
    /// Au and Av, side by side; not looked at where advection is off
    pub carried: &'a [[f64; 2]],
    /// S
    pub sums: &'a [u64],
}

/// A room in runs of the same length.
pub fn runs<const RUNS: usize>(room: &mut [f64]) -> [&mut [f64]; RUNS] {
    let mut runs = room.chunks_exact_mut(room.len() / RUNS);
    std::array::from_fn(|_| runs.next().unwrap_or_default())
}

/// Where a step is worked out.
pub struct Made<'a> {
    /// z', U' and V': the first holds R before, the others Px and Py
    pub new: [&'a mut [f64]; 3],
    pub carried: &'a mut [[f64; 2]],
    pub sums: &'a mut [u64],
}

impl<'a> Made<'a> {
    /// In a work room of 5n.
    pub fn of(work: &'a mut [f64], sums: &'a mut [u64]) -> Made<'a> {
        let (new, carried) = work.split_at_mut(3 * sums.len());
        Made { new: runs(new), carried: carried.as_chunks_mut().0, sums }
    }
}

/// A program that makes the calls. The three are called through this trait alone, so that none is woven into the measuring loop.
pub trait Program {
    fn name(&self) -> &'static str;
    fn open(&self, mesh: &Mesh, state: &mut [f64]) -> (Answer, Clock);
    fn step(&self, mesh: &Mesh, rooms: Rooms, state: &[f64], clock: Clock, forcing: &[f64]) -> (Answer, Clock);
    fn step_all(&self, mesh: &Mesh, rooms: Rooms, state: &[f64], clock: Clock, forcings: &[f64]) -> Stepped;
    fn save(&self, mesh: &Mesh, text: &mut [u8], state: &[f64], clock: Clock) -> Answer;
    fn load(&self, mesh: &Mesh, state: &mut [f64], text: &[u8], clock: Clock) -> (Answer, Clock);
    fn read_forcing(&self, forcing: &mut [f64], text: &[u8], expected: u32) -> Answer;
    fn read_grid(&self, rooms: GridRooms, text: &[u8]) -> Answer;
}
