// WebRTC over two sound files, as Debian's libwebrtc-audio-processing has it. `webrtc canceller PLAYED HEARD`: its echo canceller, extended and delay-agnostic, told a stream delay of 0, which is what a
// host knows that knows nothing; each second the median of its delay metrics. `webrtc estimator PLAYED HEARD`: the delay estimator inside it alone, fed as the canceller feeds it. Prints time in s and delay in ms
// at each change, none where it tells none; 16,000 Hz.
#include <fftw3.h>
#include <sndfile.h>
#include <webrtc/common.h>
#include <webrtc/modules/audio_processing/include/audio_processing.h>

#include <cmath>
#include <cstdio>
#include <cstring>
#include <memory>
#include <vector>

// The library has these, and no header of the package declares them.
extern "C" {
void* WebRtc_CreateDelayEstimatorFarend(int spectrum_size, int history_size);
int WebRtc_InitDelayEstimatorFarend(void* handle);
void* WebRtc_CreateDelayEstimator(void* farend_handle, int max_lookahead);
int WebRtc_InitDelayEstimator(void* handle);
int WebRtc_set_lookahead(void* handle, int lookahead);
int WebRtc_AddFarSpectrumFloat(void* handle, const float* far_spectrum, int spectrum_size);
int WebRtc_DelayEstimatorProcessFloat(void* handle, const float* near_spectrum, int spectrum_size);
}

namespace {

constexpr int kRate = 16000;

struct Sound {
  explicit Sound(const char* path) : file(sf_open(path, SFM_READ, &info)) {
    if (!file) {
      std::fprintf(stderr, "webrtc: %s: %s\n", path, sf_strerror(nullptr));
      std::exit(1);
    }
  }
  bool Read(float* samples, size_t count) { return sf_read_float(file, samples, count) == static_cast<sf_count_t>(count); }
  SF_INFO info{};
  SNDFILE* file;
};

class Teller {
 public:
  void Tell(double seconds, int ms) {
    if (ms == last_) return;
    last_ = ms;
    if (ms < 0) std::printf("%.3f none\n", seconds);
    else std::printf("%.3f %d\n", seconds, ms);
  }

 private:
  int last_ = -1;
};

int Canceller(Sound& played, Sound& heard) {
  webrtc::Config config;
  config.Set<webrtc::ExtendedFilter>(new webrtc::ExtendedFilter(true));
  config.Set<webrtc::DelayAgnostic>(new webrtc::DelayAgnostic(false));
  std::unique_ptr<webrtc::AudioProcessing> apm(webrtc::AudioProcessing::Create(config));
  const webrtc::StreamConfig stream(kRate, 1);
  webrtc::ProcessingConfig all;
  for (auto& one : all.streams) one = stream;
  if (apm->Initialize(all)) return 1;
  apm->echo_cancellation()->enable_drift_compensation(false);
  apm->echo_cancellation()->enable_delay_logging(true);
  apm->echo_cancellation()->Enable(true);
  std::vector<float> far(kRate / 100), near(kRate / 100), out(kRate / 100);
  float *far_list = far.data(), *near_list = near.data(), *out_list = out.data();
  Teller teller;
  for (long block = 1; played.Read(far_list, far.size()) && heard.Read(near_list, near.size()); block++) {
    apm->ProcessReverseStream(&far_list, stream, stream, &out_list);
    apm->set_stream_delay_ms(0);
    apm->ProcessStream(&near_list, stream, stream, &out_list);
    int median, deviation;
    float poor;
    if (block % 100 == 0 && apm->echo_cancellation()->GetDelayMetrics(&median, &deviation, &poor) == 0) teller.Tell(block / 100.0, median);
  }
  return 0;
}

class Spectrum {
 public:
  Spectrum() : in_(fftwf_alloc_real(128)), out_(fftwf_alloc_complex(65)), plan_(fftwf_plan_dft_r2c_1d(128, in_, out_, FFTW_ESTIMATE)) {
    for (int i = 0; i < 128; i++) window_[i] = std::sqrt(0.5f - 0.5f * std::cos(2 * static_cast<float>(M_PI) * (i + 0.5f) / 128));
  }
  const float* Of(const float* samples) {
    for (int i = 0; i < 128; i++) in_[i] = samples[i] * window_[i] * 32768;
    fftwf_execute(plan_);
    for (int i = 0; i < 65; i++) magnitudes_[i] = std::hypot(out_[i][0], out_[i][1]);
    return magnitudes_;
  }

 private:
  float* in_;
  fftwf_complex* out_;
  fftwf_plan plan_;
  float window_[128], magnitudes_[65];
};

bool Next(Sound& sound, float* samples) {
  std::memmove(samples, samples + 64, 64 * sizeof *samples);
  return sound.Read(samples + 64, 64);
}

int Estimator(Sound& played, Sound& heard) {
  void* far_end = WebRtc_CreateDelayEstimatorFarend(65, 125);
  void* estimator = WebRtc_CreateDelayEstimator(far_end, 125);
  WebRtc_InitDelayEstimatorFarend(far_end);
  WebRtc_InitDelayEstimator(estimator);
  WebRtc_set_lookahead(estimator, 0);
  Spectrum spectrum;
  float far[128] = {0}, near[128] = {0};
  Teller teller;
  for (long block = 1; Next(played, far) && Next(heard, near); block++) {
    WebRtc_AddFarSpectrumFloat(far_end, spectrum.Of(far), 65);
    const int found = WebRtc_DelayEstimatorProcessFloat(estimator, spectrum.Of(near), 65);
    teller.Tell(block * 0.004, found < 0 ? -1 : found * 4);
  }
  return 0;
}

}  // namespace

int main(int count, char** words) {
  if (count != 4) return 2;
  Sound played(words[2]), heard(words[3]);
  return std::strcmp(words[1], "canceller") == 0 ? Canceller(played, heard) : Estimator(played, heard);
}
