// How a node joins, and how the nodes beside it let it in.

fn denied(node: Id, why: &Why) -> Answer {
    Answer::Denied(Box::new((node, why.clone())))
}

fn is_own(gate: &Option<Box<Gate>>, joiner: Id, attempt: u32) -> bool {
    gate.as_ref().is_some_and(|gate| gate.joiner == joiner && gate.attempt == attempt)
}

// ---- the joiner

impl Node {
    fn join(&mut self, step: &mut Step, number: u64, via: Id) {
        match self.phase {
            Phase::Waiting if self.attempt == u32::MAX => step.close(number, Answer::Stopped(self.me, Own::Spent)),
            Phase::Waiting => {
                self.phase = Phase::Asking(number);
                step.send(via, Message::JoinRequest(self.me, self.attempt, 0));
            }
            _ => step.close(number, Answer::Stopped(self.me, Own::Already)),
        }
    }

    fn give_up(&mut self, step: &mut Step, number: u64) {
        let joining = match &self.phase {
            Phase::Asking(join) | Phase::Probing(join, _) => *join,
            Phase::Leasing(leasing) => {
                step.send_both(leasing.left, leasing.right, || Message::Release(self.attempt));
                leasing.number
            }
            _ => return step.close(number, Answer::NothingToGiveUp),
        };
        self.wait_again();
        step.close(joining, Answer::Stopped(self.me, Own::GivenUp));
        step.close(number, Answer::GaveUp);
    }

    fn wait_again(&mut self) {
        self.phase = Phase::Waiting;
        self.attempt += 1;
    }

    fn join_message(&mut self, step: &mut Step, from: Id, message: &Message) {
        match message {
            Message::JoinRequest(joiner, attempt, hops) => self.on_join_request(step, *joiner, *attempt, *hops),
            Message::JoinReply(attempt, members) if *attempt == self.attempt => self.on_join_reply(step, members),
            Message::JoinRefuse(attempt, why) if *attempt == self.attempt => self.on_refuse(step, from, why),
            Message::Probe(attempt) => self.on_probe(step, from, *attempt),
            Message::ProbeReply(attempt, members) if *attempt == self.attempt => self.on_probe_reply(step, from, members),
            Message::LeaseRequest(attempt, left, right) => self.on_lease_request(step, from, *attempt, *left, *right),
            Message::Grant(attempt, manifest, tombs) => self.on_grant(step, from, *attempt, manifest, tombs),
            Message::Deny(attempt, why) if *attempt == self.attempt => self.on_deny(step, from, why),
            Message::Handover(handover) => self.on_handover(step, handover),
            Message::Release(attempt) => self.on_release(from, *attempt),
            Message::Confirm(attempt) => self.on_confirm(from, *attempt),
            _ => {}
        }
    }

    fn on_refuse(&mut self, step: &mut Step, from: Id, why: &Why) {
        if let Phase::Asking(number) = self.phase {
            self.wait_again();
            step.close(number, denied(from, why));
        }
    }

    fn on_join_reply(&mut self, step: &mut Step, members: &[Id]) {
        let Phase::Asking(number) = self.phase else { return };
        members.iter().for_each(|id| self.known.learn(*id));
        let probed: Vec<(Id, bool)> = self.known.leaves().map(|leaf| (leaf, false)).collect();
        if probed.is_empty() {
            return;
        }
        probed.iter().for_each(|(leaf, _)| step.send(*leaf, Message::Probe(self.attempt)));
        self.phase = Phase::Probing(number, probed);
    }

    fn on_probe_reply(&mut self, step: &mut Step, from: Id, members: &[Id]) {
        let Phase::Probing(number, probed) = &mut self.phase else { return };
        let Some(spot) = probed.iter_mut().find(|(id, answered)| *id == from && !answered) else { return };
        spot.1 = true;
        members.iter().for_each(|id| self.known.learn(*id));
        for leaf in self.known.leaves() {
            if !probed.iter().any(|(id, _)| *id == leaf) {
                step.send(leaf, Message::Probe(self.attempt));
                probed.push((leaf, false));
            }
        }
        if probed.iter().all(|(_, answered)| *answered) {
            let (left, right) = (self.known.left.ids[0], self.known.right.ids[0]);
            let leasing = Leasing { number: *number, left, right, from_left: None, from_right: None };
            self.phase = Phase::Leasing(Box::new(leasing));
            step.send_both(left, right, || Message::LeaseRequest(self.attempt, left, right));
        }
    }

    fn on_deny(&mut self, step: &mut Step, from: Id, why: &Why) {
        let Phase::Leasing(leasing) = &self.phase else { return };
        let Leasing { number, left, right, .. } = **leasing;
        if let Why::Moved(links) = why {
            self.known.learn(links.0);
            self.known.learn(links.1);
        }
        step.send_both(left, right, || Message::Release(self.attempt));
        self.wait_again();
        step.close(number, denied(from, why));
    }

    fn on_grant(&mut self, step: &mut Step, from: Id, attempt: u32, manifest: &Files, tombs: &Files) {
        if attempt < self.attempt {
            return step.send(from, Message::Release(attempt));
        }
        if attempt > self.attempt {
            return;
        }
        let leasing = match &mut self.phase {
            Phase::Ready(..) => return step.send(from, Message::Confirm(attempt)),
            Phase::Leasing(leasing) => leasing,
            _ => return,
        };
        let mut any = false;
        let Leasing { left, right, from_left, from_right, .. } = &mut **leasing;
        for (side, kept) in [(left, from_left), (right, from_right)] {
            if from == *side && kept.is_none() {
                *kept = Some(Lists { manifest: manifest.clone(), tombs: tombs.clone() });
                any = true;
            }
        }
        if any {
            tombs.iter().for_each(|file| self.files.set(file, None));
            self.test_ready(step);
        }
    }

    fn on_handover(&mut self, step: &mut Step, handover: &Handover) {
        if !self.files.contains(&handover.file) && !self.files.is_full() {
            self.files.set(&handover.file, Some(handover.bytes.clone()));
            self.test_ready(step);
        }
    }

    fn has_all(&self, lists: &Option<Lists>) -> bool {
        lists.as_ref().is_some_and(|lists| {
            lists.manifest.iter().all(|file| self.files.contains(file))
                && lists.tombs.iter().all(|file| self.files.get(file) == Some(&None))
        })
    }

    fn test_ready(&mut self, step: &mut Step) {
        let Phase::Leasing(leasing) = &self.phase else { return };
        let Leasing { number, left, right, from_left, from_right } = &**leasing;
        if !(self.has_all(from_left) && self.has_all(from_right)) {
            return;
        }
        let (number, left, right) = (*number, *left, *right);
        self.phase = Phase::Ready(left, right);
        step.send_both(left, right, || Message::Confirm(self.attempt));
        self.known.leaves().for_each(|leaf| step.send(leaf, Message::Announce));
        step.close(number, Answer::Joined(Box::new((left, right))));
    }
}

// ---- the nodes beside it

impl Node {
    fn on_join_request(&mut self, step: &mut Step, joiner: Id, attempt: u32, hops: u16) {
        match self.hop(joiner) {
            Hop::NotReady => step.send(joiner, Message::JoinRefuse(attempt, Why::NotReady)),
            Hop::To(next) => step.send(next, Message::JoinRequest(joiner, attempt, hops.saturating_add(1))),
            Hop::Gap(other) if other != joiner => step.send(joiner, Message::JoinRefuse(attempt, Why::Busy(other))),
            _ => step.send(joiner, Message::JoinReply(attempt, self.known.members())),
        }
    }

    fn on_probe(&mut self, step: &mut Step, from: Id, attempt: u32) {
        if matches!(self.phase, Phase::Ready(..)) {
            step.send(from, Message::ProbeReply(attempt, self.known.members()));
        }
    }

    fn on_lease_request(&mut self, step: &mut Step, from: Id, attempt: u32, asked_left: Id, asked_right: Id) {
        let Some(reach) = self.reach() else {
            return step.send(from, Message::Deny(attempt, Why::NotReady));
        };
        let (for_right, for_left) = (self.me == asked_left, self.me == asked_right);
        let gate = if for_right { &self.right_gate } else { &self.left_gate };
        if (for_right || for_left)
            && (!for_right || is_own(&self.right_gate, from, attempt))
            && (!for_left || is_own(&self.left_gate, from, attempt))
        {
            return self.grant(step, from, attempt, &gate.as_ref().unwrap().lists);
        }
        for gate in [&mut self.left_gate, &mut self.right_gate] {
            gate.take_if(|gate| gate.joiner == from && gate.attempt < attempt);
        }
        let on_right = joiner_of(&self.right_gate).filter(|_| for_right);
        let on_left = joiner_of(&self.left_gate).filter(|_| for_left);
        if let Some(joiner) = on_right.or(on_left) {
            return step.send(from, Message::Deny(attempt, Why::Busy(joiner)));
        }
        let fits = between(asked_left, from, asked_right)
            && (for_right || for_left)
            && (!for_right || reach.right == asked_right)
            && (!for_left || reach.left == asked_left);
        if !fits {
            let links = Rc::new((reach.left, reach.right));
            return step.send(from, Message::Deny(attempt, Why::Moved(links)));
        }
        self.let_in(step, from, attempt, for_left, for_right);
    }

    /// Gates for a joiner on the sides that it asks for: it gets the files in its gap, and inserts of such files are over.
    fn let_in(&mut self, step: &mut Step, joiner: Id, attempt: u32, for_left: bool, for_right: bool) {
        let (me, Some(mut reach)) = (self.me, self.reach()) else { return };
        if for_left {
            reach.left_joiner = Some(joiner);
        }
        if for_right {
            reach.right_joiner = Some(joiner);
        }
        let lists = self.files_in_gap(&reach, joiner);
        let gate = |lists: &Lists| Some(Box::new(Gate { joiner, attempt, lists: lists.share() }));
        if for_left {
            self.left_gate = gate(&lists);
        }
        if for_right {
            self.right_gate = gate(&lists);
        }
        self.grant(step, joiner, attempt, &lists);
        let busy = || Reply::Busy(Rc::new(Busy { node: me, joiner }));
        self.end_pending(step, |ask| reach.in_gap(joiner, key_of(&ask.file)), busy);
    }

    fn files_in_gap(&self, reach: &Reach, joiner: Id) -> Lists {
        let of = |held: bool| {
            let fits = |(file, slot): &&(File, Option<Bytes>)| slot.is_some() == held && reach.in_gap(joiner, key_of(file));
            self.files.files.iter().filter(fits).map(|(file, _)| *file).collect()
        };
        Lists { manifest: of(true), tombs: of(false) }
    }

    fn grant(&self, step: &mut Step, to: Id, attempt: u32, lists: &Lists) {
        step.send(to, Message::Grant(attempt, lists.manifest.clone(), lists.tombs.clone()));
        for file in lists.manifest.iter() {
            if let Some(Some(bytes)) = self.files.get(file) {
                step.send(to, Message::Handover(Box::new(Handover { file: *file, bytes: bytes.clone() })));
            }
        }
    }

    fn on_release(&mut self, from: Id, attempt: u32) {
        for gate in [&mut self.left_gate, &mut self.right_gate] {
            gate.take_if(|gate| gate.joiner == from && gate.attempt == attempt);
        }
    }

    fn on_confirm(&mut self, from: Id, attempt: u32) {
        let Phase::Ready(left, right) = &mut self.phase else { return };
        let mut any = false;
        for (gate, link) in [(&mut self.left_gate, left), (&mut self.right_gate, right)] {
            if gate.take_if(|gate| gate.joiner == from && gate.attempt == attempt).is_some() {
                *link = from;
                any = true;
            }
        }
        if any {
            self.known.learn(from);
        }
    }
}
