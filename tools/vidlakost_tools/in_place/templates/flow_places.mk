
# the chip in which they stand, by its own ports, and what Yosys proves of its use
places/passed: chip/access FORCE
	@mkdir -p places
	@$(call kept,$@,@@{read} @@{access}) || { $(call again,$@); \
	  (cd $(ROOT) && $(LAUNCHER) places @@{file} @@{words} $(OUT)/chip) && \
	  (sed 's,^[^/],../chip/&,' chip/@@{name}_places.f >places/files.f && \
	  cd places && $(call simulate,@@{name}_places_tb,passed)) && touch $@ && $(call done,$@,@@{read} @@{access}); }
