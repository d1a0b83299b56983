      IF (I.LE.0) THEN
      IF (I.LE.1) THEN
      IF (I.LE.2) THEN
      IF (I.LE.3) THEN
      IF (I.LE.4) THEN
      IF (I.LE.5) THEN
      IF (I.LE.6) THEN
      IF (I.LE.7) THEN
      IF (I.LE.8) THEN
      IF (I.LE.9) THEN
      IF (I.LE.10) THEN
      IF (I.LE.11) THEN
      IF (I.LE.12) THEN
      IF (I.LE.13) THEN
      IF (I.LE.14) THEN
      IF (I.LE.15) THEN
      IF (I.LE.16) THEN
      IF (I.LE.17) THEN
      IF (I.LE.18) THEN
      IF (I.LE.19) THEN
      IF (I.LE.20) THEN
      IF (I.LE.21) THEN
      IF (I.LE.22) THEN
      IF (I.LE.23) THEN
      IF (I.LE.24) THEN
      IF (I.LE.25) THEN
      IF (I.LE.26) THEN
      IF (I.LE.27) THEN
      IF (I.LE.28) THEN
      IF (I.LE.29) THEN
      IF (I.LE.30) THEN
      IF (I.LE.31) THEN
      IF (I.LE.32) THEN
      J=1
      END IF
      END IF
      END IF
      END IF
      END IF
      END IF
      END IF
      END IF
      END IF
      END IF
      END IF
      END IF
      END IF
      END IF
      END IF
      END IF
      END IF
      END IF
      END IF
      END IF
      END IF
      END IF
      END IF
      END IF
      END IF
      END IF
      END IF
      END IF
      END IF
      END IF
      END IF
      END IF
      END IF
      END
