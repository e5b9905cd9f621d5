// What sends: the integrations of each receiver, from Alertmanager's packages.
package main

import (
	"fmt"

	"github.com/go-kit/log"

	"github.com/prometheus/alertmanager/config"
	"github.com/prometheus/alertmanager/notify"
	"github.com/prometheus/alertmanager/notify/discord"
	"github.com/prometheus/alertmanager/notify/email"
	"github.com/prometheus/alertmanager/notify/opsgenie"
	"github.com/prometheus/alertmanager/notify/pagerduty"
	"github.com/prometheus/alertmanager/notify/pushover"
	"github.com/prometheus/alertmanager/notify/slack"
	"github.com/prometheus/alertmanager/notify/sns"
	"github.com/prometheus/alertmanager/notify/telegram"
	"github.com/prometheus/alertmanager/notify/victorops"
	"github.com/prometheus/alertmanager/notify/webex"
	"github.com/prometheus/alertmanager/notify/webhook"
	"github.com/prometheus/alertmanager/notify/wechat"
	"github.com/prometheus/alertmanager/template"
)

// settings is one item of a list such as `webhook_configs`.
type settings interface{ notify.ResolvedSender }

// kind is a kind of integrations: its name, its settings in a receiver, and what makes a sender of them.
type kind struct {
	name string
	of   func(*config.Receiver) []settings
	make func(settings, *template.Template, log.Logger) (notify.Notifier, error)
}

// kinds are in the order of docs/story.md: it decides the positions that the board gives to the integrations of a receiver.
var kinds = []kind{
	kindOf("webhook", func(r *config.Receiver) []*config.WebhookConfig { return r.WebhookConfigs }, plainly(webhook.New)),
	kindOf("email", func(r *config.Receiver) []*config.EmailConfig { return r.EmailConfigs },
		func(c *config.EmailConfig, t *template.Template, l log.Logger) (notify.Notifier, error) {
			return email.New(c, t, l), nil
		}),
	kindOf("pagerduty", func(r *config.Receiver) []*config.PagerdutyConfig { return r.PagerdutyConfigs }, plainly(pagerduty.New)),
	kindOf("opsgenie", func(r *config.Receiver) []*config.OpsGenieConfig { return r.OpsGenieConfigs }, plainly(opsgenie.New)),
	kindOf("wechat", func(r *config.Receiver) []*config.WechatConfig { return r.WechatConfigs }, plainly(wechat.New)),
	kindOf("slack", func(r *config.Receiver) []*config.SlackConfig { return r.SlackConfigs }, plainly(slack.New)),
	kindOf("victorops", func(r *config.Receiver) []*config.VictorOpsConfig { return r.VictorOpsConfigs }, plainly(victorops.New)),
	kindOf("pushover", func(r *config.Receiver) []*config.PushoverConfig { return r.PushoverConfigs }, plainly(pushover.New)),
	kindOf("sns", func(r *config.Receiver) []*config.SNSConfig { return r.SNSConfigs }, plainly(sns.New)),
	kindOf("telegram", func(r *config.Receiver) []*config.TelegramConfig { return r.TelegramConfigs }, plainly(telegram.New)),
	kindOf("discord", func(r *config.Receiver) []*config.DiscordConfig { return r.DiscordConfigs }, plainly(discord.New)),
	kindOf("webex", func(r *config.Receiver) []*config.WebexConfig { return r.WebexConfigs }, plainly(webex.New)),
}

// kindOf makes a row of the table from functions of one type of settings.
func kindOf[C settings, N notify.Notifier](name string, of func(*config.Receiver) []C, new func(C, *template.Template, log.Logger) (N, error)) kind {
	return kind{
		name: name,
		of: func(r *config.Receiver) []settings {
			var out []settings
			for _, it := range of(r) {
				out = append(out, it)
			}
			return out
		},
		make: func(s settings, t *template.Template, l log.Logger) (notify.Notifier, error) { return new(s.(C), t, l) },
	}
}

// plainly leaves out the options for HTTP that most constructors of senders accept.
func plainly[C settings, N notify.Notifier, O any](new func(C, *template.Template, log.Logger, ...O) (N, error)) func(C, *template.Template, log.Logger) (N, error) {
	return func(c C, t *template.Template, l log.Logger) (N, error) { return new(c, t, l) }
}

// buildReceiver returns the integrations of a receiver, by position.
func buildReceiver(r *config.Receiver, t *template.Template, logger log.Logger) ([]notify.Integration, error) {
	var out []notify.Integration
	for _, k := range kinds {
		for i, s := range k.of(r) {
			sender, err := k.make(s, t, log.With(logger, "integration", k.name))
			if err != nil {
				return nil, fmt.Errorf("receiver %q: %s_configs, item %d: %w", r.Name, k.name, i, err)
			}
			out = append(out, notify.NewIntegration(sender, s, k.name, i))
		}
	}
	return out, nil
}

// buildReceivers returns the integrations of the receivers that routes name, by receiver.
func buildReceivers(conf *config.Config, used map[string]bool, t *template.Template, logger log.Logger) (map[string][]notify.Integration, error) {
	out := map[string][]notify.Integration{}
	for _, r := range conf.Receivers {
		if !used[r.Name] {
			continue
		}
		list, err := buildReceiver(r, t, logger)
		if err != nil {
			return nil, err
		}
		out[r.Name] = list
	}
	return out, nil
}
